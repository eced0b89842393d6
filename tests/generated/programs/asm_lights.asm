; program ASM lights in a pattern, with delay loops
; code 0000
; stack 20E0 0020
; data 2000 00E0
; stores 4
; listed NEXT1 a call in the loop
PATTERN: EQU 2000H
STEP:   EQU 2010H
        LXI SP,2100H
        LXI H,PATTERN          ; the table to RAM, where the panel may change it
        LXI D,TABLE
        MVI C,8
COPY:   LDAX D
        MOV M,A
        MVI B,10               ; and a while for each
HOLD:   DCR B
        JNZ HOLD
        INX D
        INX H
        DCR C
        JNZ COPY
        MVI M,0
LOOP:   LXI H,PATTERN
NEXT:   MOV A,M
        ORA A
        JZ LOOP
        OUT 1
        CALL DELAY
        IN 2                   ; a switch inverts the light that was shown
        RRC
        JNC NEXT2
        MOV A,M
        XRI 0FFH
NEXT1:  MOV M,A
NEXT2:  INX H
        LXI D,STEP
        LDAX D
        INR A
        STAX D
        JMP NEXT
DELAY:  PUSH B
        LXI B,200
DELAY1: DCX B
        MOV A,B
        ORA C
        JNZ DELAY1
        POP B
        RET
TABLE:  DB 1,2,4,8,16,32,64,128
