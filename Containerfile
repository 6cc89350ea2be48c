# Debian 12 with the tools that scripts/README.md lists, in the versions that the evidence was made with.
#
#     podman build -t yingalod .
#     podman run --rm -it --cap-add SYS_PTRACE --security-opt seccomp=unconfined \
#         -v KIT:/kit:ro -v "$PWD":/yingalod yingalod scripts/elf-files
#
# Rattle's kit comes from outside, as the folder KIT with bin/rt. What isn't Debian's: rustc 1.95.0, for programs in Rust of
# scripts/real-stacks and scripts/backtraces, and cargo, for benches with --original.
FROM debian:12

RUN apt-get update \
 && DEBIAN_FRONTEND=noninteractive apt-get install --yes --no-install-recommends \
    binutils binutils-aarch64-linux-gnu elfutils \
    gcc g++ libc6-dev libc6-dbg \
    gcc-aarch64-linux-gnu g++-aarch64-linux-gnu libc6-arm64-cross libc6-dev-arm64-cross \
    libgcc-s1-arm64-cross libstdc++6-arm64-cross libstdc++-12-dev-arm64-cross \
    gcc-mingw-w64-x86-64 g++-mingw-w64-x86-64 \
    clang lld llvm \
    gdb gdb-multiarch qemu-user wine64 \
    git perl procps python3 \
 && rm -rf /var/lib/apt/lists/*

ENV PATH="/kit/bin:${PATH}"
WORKDIR /yingalod
