; program ASM moves blocks
; code 0000
; stack 23C0 0040
; data 2000 03C0
; stores 4
FROM:   EQU 2000H
TO:     EQU 2100H
        LXI SP,2400H
        LXI H,FROM             ; text to RAM
        LXI D,TEXT
        MVI B,24
MOVE1:  LDAX D
        MOV M,A
        INX D
        INX H
        DCR B
        JNZ MOVE1
        LXI D,FROM             ; up by one page, until the end of the source
        LXI H,TO
MOVE2:  LDAX D
        MOV M,A
        INX H
        INX D
        MOV A,E
        CPI LOW(FROM+24)
        JNZ MOVE2
        LXI H,TO+23            ; up by four, from the end on, since they overlap
        LXI D,TO+27
        MVI C,24
MOVE3:  MOV A,M
        STAX D
        DCX H
        DCX D
        DCR C
        JNZ MOVE3
        LXI H,TO
        MVI M,'*'
        HLT
TEXT:   DB "COPYRIGHT 1979 BY NOBODY"
