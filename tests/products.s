# What tests/products.sh must find out: functions that have the number of a check word and one product or division each, scalar and
# vector ones, and calls of the compiler's routines for them. The last has none.
    .macro control name:req, instruction:vararg
    .globl control_\name
control_\name:
    cmp $65521, %eax
    \instruction
    ret
    .endm

    control mul_byte, mul %cl
    control mul_16, mul %cx
    control mul_wide, mul %rcx
    control imul_wide, imul %ecx
    control imul, imul %rcx, %rax
    control imul_number, imul $257, %rax, %rax
    control mulx, mulx %rcx, %rdx, %rax
    control div, div %rcx
    control idiv, idiv %ecx
    control pmullw, pmullw %xmm1, %xmm0
    control pmulhw, pmulhw %xmm1, %xmm0
    control pmulhuw, pmulhuw %xmm1, %xmm0
    control pmulhrsw, pmulhrsw %xmm1, %xmm0
    control pmuludq, pmuludq %xmm1, %xmm0
    control pmuldq, pmuldq %xmm1, %xmm0
    control pmulld, pmulld %xmm1, %xmm0
    control pmaddwd, pmaddwd %xmm1, %xmm0
    control pmaddubsw, pmaddubsw %xmm1, %xmm0
    control pclmulqdq, pclmulqdq $0, %xmm1, %xmm0
    control vpmulld, vpmulld %ymm2, %ymm1, %ymm0
    control vpmullq, vpmullq %zmm2, %zmm1, %zmm0
    control vpmaddwd, vpmaddwd %ymm2, %ymm1, %ymm0
    control vpdpbusd, vpdpbusd %zmm2, %zmm1, %zmm0
    control vpdpbusd_vex, {vex} vpdpbusd %ymm2, %ymm1, %ymm0
    control vdpbf16ps, vdpbf16ps %zmm2, %zmm1, %zmm0
    control mulsd, mulsd %xmm1, %xmm0
    control divps, divps %xmm1, %xmm0
    control dpps, dpps $255, %xmm1, %xmm0
    control fmul, fmul %st(1), %st
    control fprem, fprem
    control vfmadd, vfmadd213sd %xmm2, %xmm1, %xmm0
    control vfmsub, vfmsub213sd %xmm2, %xmm1, %xmm0
    control multi3, call __multi3
    control udivti3, call __udivti3
    control umodti3, call __umodti3
    control none, addpd %xmm1, %xmm0

    .section .note.GNU-stack, "", @progbits
