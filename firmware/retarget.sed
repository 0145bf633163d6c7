# The proved module, as text, its padding written out (firmware/padding.sed), made ready for another target. All else that is changed is here; no instruction of a function is.
# 1. Layout and triple come from the compiler's --target.
/^target datalayout/d
/^target triple/d
# 2. The processor comes from -mcpu; stack probes are x86-64 Linux's, for a guard page.
s/^\(attributes #.*\) "probe-stack"="inline-asm"/\1/
s/^\(attributes #.*\) "stack-probe-size"="[0-9]*"/\1/
s/^\(attributes #.*\) "target-cpu"="x86-64[-v0-9]*"/\1/
# 3. On Arm the callee extends a uint8_t or a uint16_t that it returns; the x86-64 ABI asks for nothing, so the module doesn't.
s/^define noundef \(i8\|i16\) @panel_/define noundef zeroext \1 @panel_/
