/* pstack: the stacks of a process's threads, on Linux for x86_64.
 *
 *     cc -std=c99 -O2 pstack.c libframehop.a -o pstack && ./pstack PID
 *
 * It stops the threads by ptrace, loads the files that are mapped in the process, copies the end of each stack, walks over the copy, and
 * lets the threads go on. What a walk needs besides the copy is read from the process's memory, word by word. */
#define _GNU_SOURCE
#include <dirent.h>
#include <elf.h>
#include <errno.h>
#include <fcntl.h>
#include <inttypes.h>
#include <stdio.h>
#include <stdlib.h>
#include <sys/mman.h>
#include <sys/ptrace.h>
#include <sys/stat.h>
#include <sys/user.h>
#include <sys/wait.h>
#include <unistd.h>

#include "framehop.h"

enum { MOST_THREADS = 4096, MOST_FILES = 4096, MOST_SECTIONS = 16, MOST_FRAMES = 512, MOST_WORDS = 1024, COPIED = 1 << 20, PATH = 4096 };

/* A file that is mapped in the process, with its bytes. What the file states to be at 0 is at `bias`. */
typedef struct {
    char *path;
    uint64_t start, end, bias;
    const uint8_t *bytes;
    size_t length;
} mapped_file;

static pid_t process, threads[MOST_THREADS];
static size_t thread_count, file_count;
static mapped_file files[MOST_FILES];
static int memory = -1;

static framehop_session session = FRAMEHOP_NO_SESSION;
static uint64_t unwinder, cache;

static void give_up(const char *what) {
    perror(what);
    exit(1);
}

static void must(framehop_status status) {
    if (status == FRAMEHOP_OK) return;
    fprintf(stderr, "pstack: %s\n", framehop_status_name(status));
    exit(1);
}

/* ---- ELF files */

/* Copies a part of a file, if the file has it. */
static int part_of(const mapped_file *file, uint64_t offset, void *to, size_t size) {
    if (offset > file->length || file->length - offset < size) return 0;
    memcpy(to, file->bytes + offset, size);
    return 1;
}

static int header_of(const mapped_file *file, Elf64_Ehdr *header) {
    return part_of(file, 0, header, sizeof *header) && memcmp(header->e_ident, ELFMAG, SELFMAG) == 0 &&
           header->e_ident[EI_CLASS] == ELFCLASS64 && header->e_machine == EM_X86_64;
}

static int section_of(const mapped_file *file, const Elf64_Ehdr *header, unsigned index, Elf64_Shdr *section) {
    return part_of(file, header->e_shoff + (uint64_t)index * sizeof *section, section, sizeof *section);
}

/* The text at an offset in a section of texts, or an empty one. */
static const char *text_of(const mapped_file *file, const Elf64_Shdr *texts, uint64_t offset) {
    const char *text;
    if (offset >= texts->sh_size || texts->sh_offset > file->length || file->length - texts->sh_offset < texts->sh_size) return "";
    text = (const char *)file->bytes + texts->sh_offset + offset;
    return memchr(text, 0, texts->sh_size - offset) ? text : "";
}

/* The function of a file at an address that the file states, with the distance from its start. */
static const char *function_at(const mapped_file *file, uint64_t address, uint64_t *distance) {
    static const uint32_t kinds[] = {SHT_SYMTAB, SHT_DYNSYM};
    Elf64_Ehdr header;
    Elf64_Shdr section, texts;
    Elf64_Sym symbol;
    if (!header_of(file, &header)) return "";
    for (size_t kind = 0; kind < 2; kind++) {
        for (unsigned i = 0; i < header.e_shnum && section_of(file, &header, i, &section); i++) {
            if (section.sh_type != kinds[kind] || !section_of(file, &header, section.sh_link, &texts)) continue;
            for (uint64_t at = 0; at + sizeof symbol <= section.sh_size && part_of(file, section.sh_offset + at, &symbol, sizeof symbol);
                 at += sizeof symbol) {
                int type = ELF64_ST_TYPE(symbol.st_info);
                if ((type != STT_FUNC && type != STT_GNU_IFUNC) || symbol.st_shndx == SHN_UNDEF) continue;
                *distance = address - symbol.st_value;
                if (*distance < symbol.st_size) return text_of(file, &texts, symbol.st_name);
            }
        }
    }
    return "";
}

/* Finds where a file's addresses begin, by the segment that is mapped first: at `start` from `offset` on. */
static int find_bias(mapped_file *file, uint64_t offset) {
    uint64_t page = (uint64_t)sysconf(_SC_PAGESIZE);
    Elf64_Ehdr header;
    Elf64_Phdr segment;
    if (!header_of(file, &header)) return 0;
    for (unsigned i = 0; i < header.e_phnum; i++) {
        if (!part_of(file, header.e_phoff + (uint64_t)i * sizeof segment, &segment, sizeof segment)) return 0;
        if (segment.p_type != PT_LOAD || segment.p_offset / page != offset / page) continue;
        file->bias = file->start - segment.p_vaddr / page * page;
        return 1;
    }
    return 0;
}

/* Loads a file by the sections that the library asks for. Their bytes stay mapped until the end. */
static void load(const mapped_file *file) {
    static const char *const asked[] = {".eh_frame", ".eh_frame_hdr", ".debug_frame", ".text", ".got"};
    framehop_section sections[MOST_SECTIONS];
    framehop_module module;
    Elf64_Ehdr header;
    Elf64_Shdr names, section;
    size_t count = 0;
    if (!header_of(file, &header) || !section_of(file, &header, header.e_shstrndx, &names)) return;
    for (unsigned i = 0; i < header.e_shnum && count < MOST_SECTIONS && section_of(file, &header, i, &section); i++) {
        const char *name = text_of(file, &names, section.sh_name);
        size_t which = 0;
        while (which < sizeof asked / sizeof *asked && strcmp(asked[which], name) != 0) which++;
        if (which == sizeof asked / sizeof *asked || section.sh_type == SHT_NOBITS || (section.sh_flags & SHF_COMPRESSED)) continue;
        if (section.sh_offset > file->length || file->length - section.sh_offset < section.sh_size) continue;
        sections[count++] = framehop_section_of(name, file->bytes + section.sh_offset, section.sh_size, section.sh_addr,
                                                section.sh_addr ? section.sh_addr + section.sh_size : 0);
    }
    memset(&module, 0, sizeof module);
    module.start = file->start;
    module.end = file->end;
    module.base = file->bias;
    module.sections = sections;
    module.section_count = count;
    module.debug_frame_beside = 1;
    if (count) must(framehop_load(&session, unwinder, &module));
}

/* ---- the process */

/* Maps a file, or copies what the kernel has mapped without one. */
static int open_bytes(mapped_file *file) {
    struct stat status;
    void *at;
    int opened;
    if (file->path[0] == '[') {
        uint8_t *copy = malloc(file->end - file->start);
        file->bytes = copy;
        file->length = file->end - file->start;
        return copy && pread(memory, copy, file->length, (off_t)file->start) == (ssize_t)file->length;
    }
    if ((opened = open(file->path, O_RDONLY)) < 0) return 0;
    if (fstat(opened, &status) != 0 || !S_ISREG(status.st_mode)) status.st_size = 0;
    at = status.st_size ? mmap(NULL, (size_t)status.st_size, PROT_READ, MAP_PRIVATE, opened, 0) : MAP_FAILED;
    close(opened);
    if (at == MAP_FAILED) return 0;
    file->bytes = at;
    file->length = (size_t)status.st_size;
    return 1;
}

/* Reads which files are mapped. What is mapped of one file counts as one stretch of addresses. */
static void read_maps(void) {
    char name[64], line[PATH + 128], path[PATH + 1];
    FILE *maps;
    snprintf(name, sizeof name, "/proc/%d/maps", (int)process);
    if (!(maps = fopen(name, "r"))) give_up(name);
    while (file_count < MOST_FILES && fgets(line, sizeof line, maps)) {
        mapped_file *file = &files[file_count];
        uint64_t start, end, offset;
        if (sscanf(line, "%" SCNx64 "-%" SCNx64 " %*s %" SCNx64 " %*s %*s %4096[^\n]", &start, &end, &offset, path) != 4) continue;
        if (file_count && strcmp(file[-1].path, path) == 0) {
            file[-1].end = end;
            continue;
        }
        if (path[0] != '/' && strcmp(path, "[vdso]") != 0) continue;
        *file = (mapped_file){strdup(path), start, end, 0, NULL, 0};
        if (file->path && open_bytes(file) && find_bias(file, offset)) file_count++;
    }
    fclose(maps);
}

/* Stops a thread, unless it was stopped before. Returns whether it is a new one. */
static int stop(pid_t thread) {
    int status;
    for (size_t i = 0; i < thread_count; i++)
        if (threads[i] == thread) return 0;
    if (thread_count == MOST_THREADS || ptrace(PTRACE_SEIZE, thread, NULL, NULL) != 0) {
        if (thread == process) give_up("ptrace");
        return 0;
    }
    if (ptrace(PTRACE_INTERRUPT, thread, NULL, NULL) != 0 || waitpid(thread, &status, __WALL) != thread || !WIFSTOPPED(status)) return 0;
    threads[thread_count++] = thread;
    return 1;
}

/* Stops all threads, also those that others have started meanwhile. */
static void stop_all(void) {
    char name[64];
    int found;
    snprintf(name, sizeof name, "/proc/%d/task", (int)process);
    do {
        DIR *tasks = opendir(name);
        struct dirent *task;
        if (!tasks) give_up(name);
        for (found = 0; (task = readdir(tasks));)
            if (task->d_name[0] != '.') found |= stop((pid_t)atoi(task->d_name));
        closedir(tasks);
    } while (found);
}

/* ---- stacks */

static void print_frame(size_t number, uint64_t address) {
    uint64_t place = framehop_address_for_lookup(number ? FRAMEHOP_AT_RETURN : FRAMEHOP_AT_INSTRUCTION, address);
    printf("#%-3zu 0x%016" PRIx64, number, address);
    for (size_t i = 0; i < file_count; i++) {
        const mapped_file *file = &files[i];
        uint64_t distance;
        const char *function;
        if (place < file->start || place >= file->end) continue;
        function = function_at(file, place - file->bias, &distance);
        if (*function) printf(" %s+0x%" PRIx64, function, distance + (address - place));
        printf(" - %s+0x%" PRIx64, file->path, address - file->bias);
        break;
    }
    putchar('\n');
}

static void print_stack(pid_t thread) {
    static uint8_t copy[COPIED];
    static framehop_word words[MOST_WORDS];
    uint64_t frames[MOST_FRAMES], printed = 0;
    struct user_regs_struct regs;
    framehop_status status;
    framehop_sample sample;
    framehop_walk_x86_64 walk;
    framehop_word *next = words;
    ssize_t copied;
    if (ptrace(PTRACE_GETREGS, thread, NULL, &regs) != 0) return;
    copied = pread(memory, copy, sizeof copy, (off_t)regs.rsp);
    walk = framehop_walk_from_x86_64(unwinder, cache, (framehop_registers_x86_64){
        regs.rip, {regs.rax, regs.rdx, regs.rcx, regs.rbx, regs.rsi, regs.rdi, regs.rbp, regs.rsp,
                   regs.r8, regs.r9, regs.r10, regs.r11, regs.r12, regs.r13, regs.r14, regs.r15}});
    sample = framehop_sample_of(regs.rsp, copy, copied > 0 ? (size_t)copied : 0);
    sample.known = words;
    sample.asks = 1;
    printf("TID %d:\n", (int)thread);
    for (;;) {
        status = framehop_next_frames_x86_64(&session, &walk, &sample, frames, (size_t)(MOST_FRAMES - printed));
        for (uint64_t i = 0; i < walk.count; i++) print_frame((size_t)(printed + i), frames[i]);
        printed += walk.count;
        if (status != FRAMEHOP_NEED_WORD || next == words + MOST_WORDS) break;
        next->address = walk.word_address;
        next->is_readable = pread(memory, &next->word, sizeof next->word, (off_t)next->address) == sizeof next->word;
        sample.known_count = (size_t)(++next - words);
    }
    if (status != FRAMEHOP_END_OF_STACK) printf("     the walk stops here: %s\n", framehop_status_name(status));
}

int main(int argc, char **argv) {
    char name[64];
    if (argc != 2 || (process = (pid_t)atoi(argv[1])) <= 0) {
        fprintf(stderr, "usage: pstack PID\n");
        return 2;
    }
    stop_all();
    snprintf(name, sizeof name, "/proc/%d/mem", (int)process);
    if ((memory = open(name, O_RDONLY)) < 0) give_up(name);
    must(framehop_session_new(&session, FRAMEHOP_X86_64));
    must(framehop_add_unwinder(&session, &unwinder));
    must(framehop_add_cache(&session, FRAMEHOP_SLOTS, &cache));
    read_maps();
    for (size_t i = 0; i < file_count; i++) load(&files[i]);
    printf("PID %d - process\n", (int)process);
    for (size_t i = 0; i < thread_count; i++) print_stack(threads[i]);
    for (size_t i = 0; i < thread_count; i++) ptrace(PTRACE_DETACH, threads[i], NULL, NULL);
    must(framehop_session_free(&session));
    return 0;
}
