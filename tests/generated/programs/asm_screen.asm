; program ASM a screen of 16 lines with 64 characters
; code 0000
; stack 23C0 0040
; data 4000 0400
; stores 6
SCREEN: EQU 4000H
        LXI SP,2400H
        LXI H,SCREEN           ; blanks
        MVI B,16
ROW:    MVI C,64
COLUMN: MVI M,' '
        INX H
        DCR C
        JNZ COLUMN
        DCR B
        JNZ ROW
        LXI H,SCREEN+448       ; the title, in the eighth line
        LXI D,TITLE
PUT:    LDAX D
        ORA A
        JZ FRAME
        MOV M,A
        INX D
        INX H
        JMP PUT
FRAME:  LXI H,SCREEN           ; a column of bars at the left
        LXI D,64
        MVI B,16
BAR:    MVI M,'!'
        DAD D
        DCR B
        JNZ BAR
        LXI D,SCREEN           ; a line up
        LXI H,SCREEN+64
UP:     MOV A,M
        STAX D
        INX D
        INX H
        MOV A,H
        CPI HIGH(SCREEN)+4
        JNZ UP
        LXI H,SCREEN+960       ; and the last one is blank
        MVI B,64
        MVI A,' '
LAST:   MOV M,A
        INX H
        DCR B
        JNZ LAST
        LXI H,SCREEN+1023
        MVI M,'.'
        HLT
TITLE:  DB "MONITOR",0
