/* The lists that replay.c reads, each with its end. They are looked for in the folder crates. Where PART is set, only so many bytes of each. */
#ifdef PART
#define BYTES , 0, PART
#else
#define BYTES
#endif
        .section .rodata
        .balign 8
        .globl scripts_list, scripts_end, rolls_list, rolls_end, lines_list, lines_end
scripts_list:
        .incbin "replay/stdin" BYTES
scripts_end:
        .byte 0
rolls_list:
        .incbin "roll_replay/stdin" BYTES
rolls_end:
        .byte 0
lines_list:
        .incbin "line_replay/stdin" BYTES
lines_end:
        .byte 0
#if defined __linux__ && defined __ELF__ /* the stack holds no code */
#if defined __arm__
        .section .note.GNU-stack, "", %progbits
#else
        .section .note.GNU-stack, "", @progbits
#endif
#endif
