; The sample's program: every half second the border takes the next of the eight colours.
; It runs from 8000 with interrupts on, mode 1.

        org     8000h

next:   ld      hl,colour
        ld      a,(hl)
        out     (0feh),a        ; bits 0 to 2 are the border
        inc     a
        and     7
        ld      (hl),a
        ld      b,25            ; 25 frames
wait:   halt
        djnz    wait
        jr      next

colour: defb    2
        defm    "A saved Spectrum"
