; program PLM commands by DO CASE
; code 0000
; stack 23C0 0040
; data 2000 03C0
; stores 9
; case GO CASE0 CASE1 CASE2 CASE3
COMMAND: EQU 2000H             ; DECLARE (COMMAND, MODE, LIMIT, FLAG) BYTE, TICKS ADDRESS
MODE:   EQU 2001H
LIMIT:  EQU 2002H
FLAG:   EQU 2003H
TICKS:  EQU 2004H
        LXI SP,2400H
        LXI H,MODE
        MVI M,0
        LXI H,LIMIT
        MVI M,100
        LXI H,0
        SHLD TICKS
LOOP:   IN 1                   ; COMMAND = INPUT(1) AND 3
        ANI 3
        STA COMMAND
        MOV L,A                ; DO CASE COMMAND
        MVI H,0
        LXI B,TABLE
        DAD H
        DAD B
        MOV E,M
        INX H
        MOV D,M
        XCHG
GO:     PCHL
CASE0:  LXI H,MODE             ; MODE = 1
        MVI M,1
        JMP NEXT
CASE1:  LXI H,LIMIT            ; LIMIT = LIMIT + 1
        INR M
        JMP NEXT
CASE2:  LXI H,LIMIT            ; LIMIT = LIMIT - 1; FLAG = 0
        DCR M
        LXI H,FLAG
        MVI M,0
        JMP NEXT
CASE3:  LXI H,FLAG             ; FLAG = NOT FLAG
        MOV A,M
        CMA
        MOV M,A
        JMP NEXT
NEXT:   LHLD TICKS             ; TICKS = TICKS + 1
        INX H
        SHLD TICKS
        LDA LIMIT              ; IF LIMIT > 200 THEN MODE = 0FFH
        MOV B,A
        MVI A,200
        CMP B
        JNC LOOP
        LXI H,MODE
        MVI M,0FFH
        LXI H,LIMIT
        MVI M,0
        JMP LOOP
TABLE:  DW CASE0,CASE1,CASE2,CASE3
