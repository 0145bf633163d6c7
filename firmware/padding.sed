# A byte beside a pointer, as a function hands them back: the module's own offsets put the pointer at 8, and the layout of a 32-bit target would put it at 4.
# The padding that x86-64 has between them is written out; for x86-64 the compiler makes the same code of it (firmware/run sees that).
s/extractvalue { i8, ptr } \(%[A-Za-z0-9._]*\), 1/extractvalue { i8, [7 x i8], ptr } \1, 2/
s/insertvalue { i8, ptr } \(.*\), 1$/insertvalue { i8, [7 x i8], ptr } \1, 2/
s/{ i8, ptr }/{ i8, [7 x i8], ptr }/g
