//! What the two architectures have in common, but for their names.

/// The calls of a cache and an unwinder.
macro_rules! of {
    ($cache:ident, $unwinder:ident, $regs:ident) => {
        impl $cache<MayAllocateDuringUnwind> {
            /// A cache for steps that may allocate.
            pub fn new() -> Self {
                Self::new_in()
            }
        }

        impl<P: AllocationPolicy> $cache<P> {
            /// A cache for steps of the policy.
            pub fn new_in() -> Self {
                Self(Mirror::new())
            }

            /// How many look-ups found a rule so far, and why the others didn't.
            pub fn stats(&self) -> CacheStats {
                self.0.stats()
            }

            /// Makes in the cache, before the first step, what the first step with this unwinder would make there. The original has no
            /// such call: its steps find all in the unwinder.
            pub fn prepare<D: Deref<Target = [u8]>>(&mut self, unwinder: &$unwinder<D, P>) {
                self.0.prepare(&unwinder.0);
            }
        }

        impl<P: AllocationPolicy> Default for $cache<P> {
            fn default() -> Self {
                Self::new_in()
            }
        }

        impl<D, P> $unwinder<D, P> {
            /// An unwinder without a module.
            pub fn new() -> Self {
                Self(Modules::new(), PhantomData)
            }
        }

        impl<D, P> Default for $unwinder<D, P> {
            fn default() -> Self {
                Self::new()
            }
        }

        impl<D, P> Clone for $unwinder<D, P> {
            fn clone(&self) -> Self {
                Self(self.0.clone(), PhantomData)
            }
        }

        impl<D: Deref<Target = [u8]>, P: AllocationPolicy> Unwinder for $unwinder<D, P> {
            type UnwindRegs = $regs;
            type Cache = $cache<P>;
            type Module = Module<D>;

            fn add_module(&mut self, module: Module<D>) {
                self.0.add(module.lent);
            }

            fn remove_module(&mut self, module_avma_range_start: u64) {
                self.0.remove(module_avma_range_start);
            }

            fn max_known_code_address(&self) -> u64 {
                self.0.last_end()
            }

            #[inline]
            fn unwind_frame<F>(
                &self,
                address: FrameAddress,
                regs: &mut $regs,
                cache: &mut $cache<P>,
                read_stack: &mut F,
            ) -> Result<Option<u64>, Error>
            where
                F: FnMut(u64) -> Result<u64, ()>,
            {
                cache.0.step(&self.0, address, &mut regs.0, read_stack)
            }
        }
    };
}

pub(crate) use of;
