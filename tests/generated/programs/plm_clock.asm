; program PLM a clock that ticks
; code 0000
; stack 20E0 0020
; data 2000 00E0
; stores 18
TENTHS: EQU 2000H              ; DECLARE (TENTHS, SECONDS, MINUTES, HOURS) BYTE, (ALARM, SHOWN) BYTE, DISPLAY (8) BYTE
SECOND: EQU 2001H
MINUTE: EQU 2002H
HOURS:  EQU 2003H
ALARM:  EQU 2004H
SHOWN:  EQU 2005H
SHOW:   EQU 2008H
T:      EQU 2010H
        LXI SP,2100H
        XRA A                  ; TENTHS, SECONDS, MINUTES, HOURS = 0
        LXI H,TENTHS
        MOV M,A
        INX H
        MOV M,A
        INX H
        MOV M,A
        INX H
        MOV M,A
        LXI H,ALARM
        MVI M,0
LOOP:   CALL WAIT
        LXI H,TENTHS           ; IF (TENTHS := TENTHS + 1) = 10 THEN
        INR M
        MOV A,M
        CPI 10
        JNZ SHOW1
        MVI M,0
        LXI H,SECOND
        INR M
        MOV A,M
        CPI 60
        JNZ SHOW1
        LXI H,SECOND
        MVI M,0
        LXI H,MINUTE
        INR M
        MOV A,M
        CPI 60
        JNZ SHOW1
        LXI H,MINUTE
        MVI M,0
        LXI H,HOURS
        INR M
        MVI A,23
        CMP M
        JNC SHOW1
        MVI M,0
SHOW1:  LDA SECOND             ; CALL TWO(SECONDS, .DISPLAY(0))
        MOV C,A
        LXI D,SHOW
        CALL TWO
        LDA MINUTE
        MOV C,A
        LXI D,SHOW+2
        CALL TWO
        LXI H,SHOWN            ; SHOWN = 1
        MVI M,1
        JMP LOOP
TWO:    MOV A,C                ; the tens and the ones go to DE and the byte behind it
        MVI B,0
TWO1:   CPI 10
        JC TWO2
        SUI 10
        INR B
        JMP TWO1
TWO2:   PUSH PSW
        MOV A,B
        ADI '0'
        STAX D
        INX D
        POP PSW
        ADI '0'
        STAX D
        RET
WAIT:   LXI H,T                ; CALL TIME(10)
        MVI M,10
WAIT1:  MVI A,5
WAIT2:  DCR A
        JNZ WAIT2
        LXI H,T
        DCR M
        JNZ WAIT1
        RET
