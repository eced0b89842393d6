; program ASM a buffer is filled by a routine that keeps all registers
; code 0000
; stack 23C0 0040
; data 2000 03C0
; stores 7
; listed PUT2 line pointer in memory
BUF:    EQU 2000H
PTR:    EQU 2080H
STATUS: EQU 2082H
        LXI SP,2400H
        LXI H,BUF
        SHLD PTR
        LXI H,STATUS
        MVI M,0
        LXI H,BUF
        MVI C,32
LOOP:   CALL READ
PUT1:   MOV M,A
        INX H
        DCR C
        JNZ LOOP
        MVI C,32
PUTS:   LHLD PTR
        PUSH H
        POP D
        IN 6
        LHLD PTR
PUT2:   MOV M,A
        INX H
        SHLD PTR
        DCR C
        JNZ PUTS
        HLT
READ:   PUSH B
        PUSH D
        PUSH H
        LXI H,STATUS
        MVI B,8                ; eight bits, the first one lowest
        MVI C,0
BIT:    IN 7
        RAR
        MOV A,C
        RAR
        MOV C,A
        INR M
        DCR B
        JNZ BIT
        LXI D,STATUS+1
        MOV A,C
        STAX D
        INX D
        MVI A,0FFH
        STAX D
        LXI H,STATUS+3
        MOV M,C
        MOV A,C
        POP H
        POP D
        POP B
        RET
