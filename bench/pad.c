/* Code that is never run and only moves what is linked after it: PAD bytes. */
__asm__(".text\n\t.space " PAD ", 0x90");
