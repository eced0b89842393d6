; program ASM clears 2 KB by the high byte of the end
; code 0000
; stack 2800 0040
; data 2000 0800
; stores 4
TABLE:  EQU 2100H
        LXI SP,2840H
        LXI H,2000H
        XRA A
CLEAR:  MOV M,A
        INX H
        MOV A,H
        CPI 28H
        MVI A,0
        JNZ CLEAR
        LXI H,TABLE            ; a table of the numbers 0 to 255 on a page of its own
FILL:   MOV M,L
        INR L
        JNZ FILL
        LXI D,TABLE+255        ; and back to front on the next page
        LXI H,TABLE+256
BACK:   LDAX D
        MOV M,A
        INX H
        DCR E
        JNZ BACK
        MVI M,0FFH
        HLT
