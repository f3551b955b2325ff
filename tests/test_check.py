"""Tries `agcws check` and `agcws explain`: mistakes with the places that are told, by hand; the rows of `explain` beside those of rows/refusals.txt; and that `check` and `asm` agree."""
import random
import re
import subprocess
import unittest

from common import EXAMPLES, PROGRAM, ROOT, ROWS, Case

# Sources with mistakes, a semicolon between two lines, and what is told of each: line, column and number, in order.
MISTAKES = [
    (" OCT 1", []),
    ("START CA FIV; AD SIKS; TFC START;FIVE OCT 5", [(1, 10, 17), (2, 5, 17), (3, 2, 15)]),
    ("CA FIVE;FIVE OCT 5", [(1, 4, 15)]),
    (" ca 5; oct 1", [(1, 2, 15), (2, 2, 15)]),
    (" CA X,1;X OCT 9", [(1, 5, 17), (2, 7, 16)]),
    (" CA A; TS L", [(1, 5, 17), (2, 5, 17)]),
    (" MP X;X OCT 1", [(1, 2, 23)]),
    (" EXTEND; CA X;X OCT 1", [(2, 2, 24)]),
    (" TS SUM;SUM OCT 0", [(1, 5, 25)]),
    ("LONGLABEL CA FIV", [(1, 1, 13), (1, 14, 17)]),
    ("X OCT 1;X CA FIV", [(2, 1, 14), (2, 6, 17)]),
    (" OCT 1 //it", [(1, 6, 16)]),
    (" OCT 1\r; OCT 2\r", [(1, 7, 10)]),
    (" BANK 18; OCT 1", [(1, 7, 16)]),
    (" SETLOC 4024; TC 0; TC 0; TC 0; TC 0; TC 0; SETLOC 4030; TC 0; TC 0", [(8, 2, 21)]),
    (" SETLOC 100;X ERASE; CA X; CA X", [(3, 2, 22)]),
    # what follows from another fault is left out: a symbol whose line is refused, extracode after a word that is not known, places after a lost location
    (" CA X;X FROB 1", [(2, 3, 15)]),
    (" EXTEN; MP X; MP X;X OCT 1", [(1, 2, 15), (3, 2, 23)]),
    ("X EQUALS Y;Y EQUALS X", [(1, 10, 18)]),
    (" SETLOC NOWHERE;X ERASE; CA 5", [(1, 9, 18)]),
    ("X EQUALS 10 11 12;LONGNAMES TS X", [(1, 10, 16), (2, 1, 13)]),
]
# What people write, a stroke between two lines, and what is said of each fault: line and column, the number with its words, and the cure where one is sure.
SAID = [
    ("START CA FIV| AD SIKS| TFC START|FIVE OCT 5|SIX OCT 6", [
        (1, 10, "E17: no line defines FIV", "did you mean FIVE?"), (2, 5, "E17: no line defines SIKS", "of a number: SIKS DEC 5, behind the last jump, and of a word that changes: SIKS ERASE, after SETLOC 100"), (3, 2, "E15: TFC is no operator", "did you mean TCF?")]),
    (" ca five|five oct 5", [(1, 2, "E15: ca is no operator", "did you mean CA?"), (2, 6, "E15: oct is no operator", "did you mean OCT?")]),
    (" CA TAB,1|TAB OCT 1", [(1, 5, "E17: no line defines TAB,1", "TAB,1 is one name; INDEX on the line before adds to an address")]),
    (" OCT 9", [(1, 6, "E16: OCT takes octal digits, 0 to 7, and 9 is no such number", "DEC takes decimal digits")]),
    (" CA A| TS L", [
        (1, 5, "E17: no line defines A", "no register has a name beforehand; this line gives it one: A EQUALS 0"),
        (2, 5, "E17: no line defines L", "no register has a name beforehand; this line gives it one: L EQUALS 1")]),
    (" MP X|X OCT 1", [(1, 2, "E23: MP is an extracode, and EXTEND does not stand before it", "EXTEND on the line before, behind a blank")]),
    ("CA FIVE|FIVE OCT 5", [(1, 4, "E15: CA stands in the first column, so it is a label, and FIVE is taken for the operator", "put a blank before CA")]),
    (" ; adds| OCT 1", [(1, 2, "E15: ; is no operator", "a comment begins with #")]),
    (" CA X ; it|X OCT 1", [(1, 5, "E16: the operand does not end where a comment was meant to begin", "a comment begins with #")]),
    (" OCT 1\r| OCT 2\r", [(1, 7, "E10: a carriage return ends the line; only a line feed may", "")]),
    ("LONGLABEL OCT 1", [(1, 1, "E13: LONGLABEL has more than 8 characters, the most of a label", "")]),
    (" TS SUM|SUM OCT 0", [(1, 5, "E25: TS writes to erasable memory, and SUM, of line 2, is not there", "reserve the word there: SETLOC and a place below 4000, and ERASE")]),
    (" SETLOC 4024| TC 0| TC 0| TC 0| TC 0| TC 0| SETLOC 4030| TC 0", [(8, 2, "E21: line 6 has a word at this place already", "")]),
    (" OCT 1| OCT 2| SETLOC 4000| 2CADR 4000| SETLOC 4001| OCT 3", [(4, 2, "E21: line 1 has a word at this place already", ""), (6, 2, "E21: line 2 has a word at this place already", "")]),
    ("SUM SETLOC 4000|SUM OCT 0| TS SUM|D TCF D", [
        (1, 1, "E13: SETLOC takes no label", "put SUM on the next line"), (3, 5, "E25: TS writes to erasable memory, and SUM, of line 2, is not there", "reserve the word there: SETLOC and a place below 4000, and ERASE")]),
    (" SETLOC X|X SETLOC 4000", [(1, 9, "E18: SETLOC needs the value of X here, and no earlier line defines it", ""), (2, 1, "E13: SETLOC takes no label", "put X on the next line")]),
    (" TS 4000|4000 OCT 1", [(1, 5, "E25: TS writes to erasable memory, and 4000 is not there", "reserve the word there: SETLOC and a place below 4000, and ERASE"), (2, 1, "E13: 4000 is a number, and no label", "")]),
    (" SETLOC 100| BANK", [(2, 2, "E16: BANK needs an operand", "with --flight this is taken")]),
    (" CA 12E|12D OCT 5", [(1, 5, "E17: no line defines 12E", "of a number: 12E DEC 5, behind the last jump, and of a word that changes: 12E ERASE, after SETLOC 100"), (2, 1, "E13: 12D is a number, and no label", "")]),
    (" TC START|START: OCT 1", [(1, 5, "E17: no line defines START", "START: is one name, its colon too; a label has no colon")]),
    (" TC START:|START OCT 1", [(1, 5, "E17: no line defines START:", "did you mean START?")]),
    (" TC DONE:", [(1, 5, "E17: no line defines DONE:", "DONE: is one name, its colon too; a label has no colon")]),
    (" DEC 10, 20, 30| OCT 5 6| OCT 1,2", [
        (1, 6, "E16: DEC takes one number, and nothing after it", "a line for each number"), (2, 6, "E16: OCT takes one number, and nothing after it", "a line for each number"),
        (3, 6, "E16: OCT takes one number, and nothing after it", "a line for each number")]),
    (" DEC 5 is it", [(1, 6, "E16: DEC takes one number, and nothing after it", "a comment begins with #")]),
    (" OCT 0x1F", [(1, 6, "E16: OCT takes octal digits, 0 to 7, and 0x1F is no such number", "DEC takes decimal digits")]),
    (" OCT -1", [(1, 6, "E16: OCT takes no sign", "DEC takes one; a minus complements the word; with --flight this is taken")]),
    (" CA =5", [(1, 5, "E17: no line defines =5", "a constant has a line of its own, whose label is the operand")]),
    (" LDA X| JMP X|X OCT 1", [(1, 2, "E15: LDA is no operator of this assembler", "CA loads A"), (2, 2, "E15: JMP is no operator of this assembler", "TCF goes on in fixed memory, TC anywhere")]),
    ("X OCT 1|X OCT 2", [(2, 1, "E14: line 1 has the label X already", "")]),
    # a label beside an operator that takes none defines nothing
    ("X SETLOC 4000| SETLOC 4000|X OCT 1| TS X", [
        (1, 1, "E13: SETLOC takes no label", "put X on the next line"),
        (4, 5, "E25: TS writes to erasable memory, and X, of line 3, is not there", "reserve the word there: SETLOC and a place below 4000, and ERASE")]),
    ("X BANK 5| SETLOC 4000|X OCT 1|X OCT 2", [(1, 1, "E13: BANK takes no label", "put X on the next line"), (4, 1, "E14: line 3 has the label X already", "")]),
    (" SETLOC X|X EBANK= 100|X OCT 1", [
        (1, 9, "E18: SETLOC needs the value of X here, and line 3 defines it, which is below", ""), (2, 1, "E13: EBANK= takes no label", "put X on the next line")]),
    (" SETLOC SUX|SUX BANK 5", [(1, 9, "E18: SETLOC needs the value of SUX here, and no earlier line defines it", ""), (2, 1, "E13: BANK takes no label", "put SUX on the next line")]),
    (" BANK 18| OCT 1", [(1, 7, "E16: banks are octal, and 18 has a digit 8 or 9", "BANK 18D takes it as decimal")]),
    (" SETLOC 100|X ERASE| CA X", [(3, 2, "E22: words stand in fixed memory, and the location is in erasable memory", "SETLOC and a fixed place, or BANK, before it")]),
    (" EXTEND| SU FIVE|FIVE OCT 5", [(2, 5, "E25: SU takes a word of erasable memory, and FIVE, of line 3, is not there", "CS FIVE and AD subtract a constant: X less FIVE is CS FIVE, AD X, without EXTEND")]),
    (" TS SUM| CCS N| WRITE OUT| CADR THERE", [
        (1, 5, "E17: no line defines SUM", "SUM ERASE, among lines after SETLOC 100, reserves a word of this name"),
        (2, 6, "E17: no line defines N", "N ERASE, among lines after SETLOC 100, reserves a word of this name"),
        (3, 2, "E23: WRITE is an extracode, and EXTEND does not stand before it", "EXTEND on the line before, behind a blank"),
        (3, 8, "E17: no line defines OUT", "OUT EQUALS and an octal number give a channel this name"),
        (4, 7, "E17: no line defines THERE", "")]),
    (" CCS FIVE|FIVE OCT 5", [(1, 6, "E25: CCS takes a word of erasable memory, and FIVE, of line 2, is not there", "copy the word to erasable memory first")]),
    (" EXTEND| CA X|X OCT 1", [(2, 2, "E24: EXTEND stands before CA, which is no extracode", "take EXTEND out")]),
    ("X EQU 5| ORG 4000", [(1, 3, "E15: EQU is no operator of this assembler", "EQUALS gives a name its value"), (2, 2, "E15: ORG is no operator of this assembler", "SETLOC sets the location")]),
    (" 2DEC 1.5", [(1, 2, "E15: 2DEC is no operator of this assembler", "two words: a DEC for each")]),
    (" SETLOC SUX|SUX OCT 1|SUY OCT 1", [(1, 9, "E18: SETLOC needs the value of SUX here, and line 2 defines it, which is below", "")]),
    ("P EQUALS P +1|R EQUALS S|S OCT 1|S OCT 2", [(1, 10, "E18: EQUALS needs the value of P here, and no earlier line defines it", ""), (2, 10, "E18: EQUALS needs the value of S here, and line 3 defines it, which is below", ""), (4, 1, "E14: line 3 has the label S already", "")]),
    (" SETLOC SUZ|SUX OCT 1", [(1, 9, "E18: SETLOC needs the value of SUZ here, and no earlier line defines it", "did you mean SUX?")]),
    # nothing is said to mend what it does not mend
    (" DEC .99999| DEC -16384", [(1, 6, "E26: a fraction of a word comes to less than 1 in 14 bits, and .99999 does not", ""), (2, 6, "E26: a word holds -16383 to 16383, and -16384 is beyond", "")]),
    (" BLOCK 50", [(1, 8, "E19: BLOCK takes 2 and 3, and 50 is neither", "")]),
    ("12D SETLOC 4000", [(1, 1, "E13: SETLOC takes no label", "")]),
    (" BANK 38", [(1, 7, "E16: banks are octal, and 38 has a digit 8 or 9", "")]),
    (" CA X + 1|X OCT 1", [(1, 5, "E16: after X only an offset may stand, a sign and an octal number", "no blank stands between both")]),
    (" " * 119 + "OCT 1", [(1, 121, "E11: the line has more than 120 bytes", "")]),
    ("\xef\xbb\xbf OCT 1", [(1, 1, "E10: a byte order mark stands in front of the line, and a line holds ASCII alone", "tail -c +4 FILE > NEW")]),
    (" OCT 1 # \xdc", [(1, 10, "E10: this byte is not ASCII, and a line holds ASCII alone, its comment too", "")]),
    # an operator's name that is one longer is nearer than one that is shorter
    (" EBANK 5", [(1, 2, "E15: EBANK is no operator", "did you mean EBANK=?")]),
]
# Forms of flight programs, a stroke between two lines, and what is said of the first fault of each in the standard language, and with --flight, which takes most.
FORMS = [
    (" +3 OCT 1", (1, 2, "E15: +3 is no operator", "a label begins in the first column: no blank before +3; with --flight this is taken"), None),
    (" COUNT* $$/EXEC", (1, 2, "E15: COUNT* is no operator", "with --flight this is taken"), None),
    (" BNKSUM 05", (1, 2, "E15: BNKSUM is no operator", "with --flight this is taken"), None),
    (" SUBRO X", (1, 2, "E15: SUBRO is no operator", "with --flight this is taken"), None),
    (" MEMORY 120000 - 167777", (1, 2, "E15: MEMORY is no operator", "with --flight this is taken"), None),
    ("TAG EQUALS", (1, 5, "E16: EQUALS needs an operand", "with --flight this is taken"), None),
    (" BANK", (1, 2, "E16: BANK needs an operand", "with --flight this is taken"), None),
    ("N = M|M EQUALS 5", (1, 5, "E18: = needs the value of M here, and line 2 defines it, which is below", ""), None),
    (" 2DEC .57735027", (1, 2, "E15: 2DEC is no operator of this assembler", "two words: a DEC for each; with --flight this is taken"), None),
    (" DEC 1.0 E4 B-14", (1, 6, "E16: DEC takes one number, and nothing after it", "a comment begins with #; with --flight this is taken"), None),
    (" 1DNADR X|X EQUALS 100", (1, 2, "E15: 1DNADR is no operator", "with --flight this is taken"), None),
    (" -6DNADR 154", (1, 2, "E15: -6DNADR is no operator", "with --flight this is taken"), None),
    (" BBCON X|X OCT 1", (1, 2, "E15: BBCON is no operator", "with --flight this is taken"), None),
    (" GENADR X|X OCT 1", (1, 2, "E15: GENADR is no operator", "with --flight this is taken"), None),
    (" VN 0633", (1, 2, "E15: VN is no operator", "with --flight this is taken"), None),
    (" SETLOC 100|-PHASE1 ERASE", (2, 1, "E13: -PHASE1 begins with a sign, as no label may", "with --flight this is taken"), None),
    (" TC 10000", (1, 5, "E26: 10000 is past the last address or number", ""), None),
    (" OCT -20000", (1, 6, "E16: OCT takes no sign", "DEC takes one; a minus complements the word; with --flight this is taken"), None),
    (" OCTAL 37777", (1, 2, "E15: OCTAL is no operator", "with --flight this is taken"), None),
    (" 2OCT 0000500000", (1, 2, "E15: 2OCT is no operator of this assembler", "two words: an OCT for each; with --flight this is taken"), None),
    (" OCT 1 # " + 120 * "x", (1, 121, "E11: the line has more than 120 bytes", "part the comment into two lines; with --flight this is taken"), None),
    (" MM 37", (1, 2, "E15: MM is no operator", ""), (1, 2, "E15: MM is not taken, since it is not sure what yaYUL makes of it: perhaps the word of DEC (80 in 100)", "OCT makes a word")),
    (" 2DEC 60000", (1, 2, "E15: 2DEC is no operator of this assembler", "two words: a DEC for each; with --flight this is taken"), None),
    (" 2DEC* 3.986032 E10 B-36*", (1, 2, "E15: 2DEC* is no operator", "with --flight this is taken"), None),
    (" DEC 5 E3", (1, 6, "E16: DEC takes one number, and nothing after it", "a comment begins with #"),
     (1, 6, "E16: digits with E need a point or B: whether yaYUL makes a whole number of them or a fraction is not known for sure", "B-28 last makes a whole number of two words, B-14 of one")),
    (" CHECK= X +5", (1, 2, "E15: CHECK= is no operator", "with --flight this is taken"), None),
    (" -DNCHAN 30", (1, 2, "E15: -DNCHAN is no operator", "with --flight this is taken"), None),
    (" LXCH 0 -1", (1, 7, "E26: this leads out of its bank, or of the numbers", ""), None),
    (" TC 0 -1", (1, 5, "E26: this leads out of its bank, or of the numbers", ""), (1, 5, "E26: an address below 0 is not taken: what yaYUL makes of it is not known for sure", "")),
    (" INDEX 1| CAF 0", (2, 6, "E25: CAF takes a fixed place, and 0 is none", ""), None),
    (" CAF X|X EQUALS 5", (1, 6, "E25: CAF takes a fixed place, and X, of line 2, is none", ""), (1, 6, "E25: CAF takes a fixed place, and X, of line 2, is none", "")),
    (" SETLOC 100|X ERASE 0 - 7", (2, 9, "E16: ERASE takes nothing, or a plus sign and a number", "ERASE reserves one word, ERASE +1 two"),
     (2, 9, "E16: ERASE takes nothing, or a plus sign and a number: of a range perhaps all words (60 to 90 in 100)", "ERASE reserves one word, ERASE +1 two")),
    ("$FILE.agc", (1, 1, "E13: $FILE.agc has a $, which no label may have", ""), (1, 1, "E13: $FILE.agc has a $, which no label may have", "")),
    (" AD -MAXADRS", (1, 5, "E16: -MAXADRS is no sign with a number, which stands alone and moves on from this line", "NAME +1 is the word after NAME; CS loads a complement; with --flight this is taken"),
     (1, 5, "E17: no line defines -MAXADRS", "of a number: -MAXADRS DEC 5, behind the last jump, and of a word that changes: -MAXADRS ERASE, after SETLOC 100")),
    # a name that begins with a sign, and one with a sign in it
    (" SETLOC 100|-PHASE1 ERASE| SETLOC 4000| AD -PHASE2", (2, 1, "E13: -PHASE1 begins with a sign, as no label may", "with --flight this is taken"), (4, 5, "E17: no line defines -PHASE2", "did you mean -PHASE1?")),
    (" CA X+1|X OCT 1", (1, 5, "E17: no line defines X+1", "X+1 is one name; a blank stands before an offset"), (1, 5, "E17: no line defines X+1", "X+1 is one name; a blank stands before an offset")),
    # a symbol of the wrong kind is told with its line
    (" 1DNADR X|X OCT 1", (1, 2, "E15: 1DNADR is no operator", "with --flight this is taken"), (1, 9, "E25: 1DNADR takes an erasable place, and X, of line 2, is none", "")),
    (" -CADR X|X EQUALS 100", (1, 2, "E15: -CADR is no operator", "did you mean ECADR?; with --flight this is taken"), (1, 8, "E25: -CADR takes a fixed place, and X, of line 2, is none", "")),
    (" -CCS X|X OCT 1", (1, 2, "E15: -CCS is no operator", "did you mean CCS?; with --flight this is taken"), (1, 7, "E25: -CCS takes a word of erasable memory, and X, of line 2, is not there", "")),
    (" BBCON X| BANK 30|X OCT 1", (1, 2, "E15: BBCON is no operator", "with --flight this is taken"),
     (1, 8, "E25: BBCON takes a fixed place of a bank below 30, and X, of line 3, is none: from bank 30 on yaYUL perhaps adds 060 (65 in 100)", "")),
    (" OCTAL 7 +1", (1, 2, "E15: OCTAL is no operator", ""), (1, 8, "E16: OCTAL takes one number, and nothing after it", "a comment begins with #")),
    (" DNCHAN X|X OCT 1", (1, 2, "E15: DNCHAN is no operator", "with --flight this is taken"), (1, 9, "E25: DNCHAN takes a channel, 0 to 777, and X, of line 2, is none", "")),
]
# Feeds, a stroke between two lines, and what is said of each: the line and the column of its first fault, the number with its words, and the cure where one is sure; the first are the mistakes of the manual's rows.
FEEDS = [
    ("", None),
    ("5 CHAN 15 21|5 RUPT 10|EVERY 0 853 1 600 TIME1 PINC # a clock||9 TIME6 DINC", None),
    ("CHAN 15 21", (1, 1, "E30: no cycle stands before CHAN", "a line begins with its cycle, in decimal digits")),
    ("-1 TIME1 PINC", (1, 1, "E30: -1 is no cycle, which is 1 to 15 decimal digits", "")),
    ("1000000000000000 TIME1 PINC", (1, 1, "E30: a cycle has 15 digits at most", "")),
    ("5, CHAN 15 21", (1, 1, "E30: 5, is no cycle, which is 1 to 15 decimal digits", "")),
    ("5 KEYRUPT1", (1, 3, "E30: KEYRUPT1 is no counter, and neither CHAN nor RUPT", "")),
    ("5 time1 pinc", (1, 3, "E30: time1 is no counter, and neither CHAN nor RUPT", "did you mean TIME1?")),
    ("5 TIME1", (1, 3, "E30: nothing follows TIME1", "CHAN with a channel and a word, RUPT with a number, or a counter with a sequence")),
    ("5 TIME1 PINC 1", (1, 14, "E30: 1 follows the whole input", "a comment begins with #")),
    ("0 CHAN 1 5", (1, 8, "E30: 1 is no channel of inputs, which are 0 and 3 to 777 in octal", "")),
    ("5 CHAN 18 0", (1, 8, "E30: channels are octal, and 18 has a digit 8 or 9", "")),
    ("5 CHAN 15 100000", (1, 11, "E30: 100000 is no word, which is 0 to 77777 in octal", "")),
    ("0 RUPT 11", (1, 8, "E30: 11 is no interrupt, which are 1 to 10", "")),
    ("5 TIME1 PINC\r", (1, 13, "E30: a carriage return ends the line; only a line feed may", "")),
    ("5 TIME1 PINC # " + 106 * "x", (1, 121, "E30: the line has more than 120 bytes", "part the comment into two lines")),
    ("EVERY TIME1 PINC", (1, 7, "E30: a number is missing before TIME1", "EVERY FIRST NUM DEN COUNT, and an input without its cycle")),
    ("EVERY 0 853 5 TIME1 PINC", (1, 15, "E30: a number is missing before TIME1", "EVERY FIRST NUM DEN COUNT, and an input without its cycle")),
    ("EVERY 0 0 1 5 TIME1 PINC", (1, 9, "E30: NUM, DEN and COUNT are 1 or more", "")),
    ("EVERY 0 1000000000 1 5 TIME1 PINC", (1, 9, "E30: NUM, DEN and COUNT have 9 digits at most", "")),
    ("EVERY 0 853 1 5 0 TIME1 PINC", (1, 17, "E30: 0 stands where CHAN, RUPT or a counter does", "one cycle stands before an input, and none before that of a series")),
    ("5 TIME1 PINC|EVERY 0 853 1 5 TIME1 PINC|4 RUPT 1|x", (3, 1, "E31: the cycle is below that of the input before it, on line 1", "inputs stand in the order of their cycles, and EVERY anywhere")),
    ("5 TIME1 PINC|" + "9 RUPT 1|" * 65536, (65537, 1, "E32: the feed has more than 65,536 inputs besides its series", "")),
    ("0 TIME6 PINC", (1, 9, "E33: the counter does not take PINC", "TIME6 takes DINC")),
    (" 0 CDUX PINC|5", (1, 9, "E33: the counter does not take PINC", "CDUX takes PCDU and MCDU")),
    ("# series|" + "EVERY 0 853 1 5 TIME1 PINC|" * 17, (18, 1, "E35: the feed has more than 16 series", "")),
]
# Sources with what is likely a mistake, and the warnings that are told of each with --unused, in order. START, DONE and what is reserved last are named by a line of their own.
WARNINGS = [
    (" OCT 1", []),
    ("RETURN", [(1, 1, 1), (1, 1, 8)]),
    (" TC CA;CA TC CA", [(2, 1, 1)]),
    (" CA 5", [(1, 2, 4), (1, 5, 2)]),
    (" CA 60; CA 61; CS 0; TS 5; CA 5 +1; CA 00005", [(1, 5, 2), (3, 5, 2), (6, 2, 4), (6, 5, 2)]),
    (" EXTEND; MP 7; INDEX 5; CA 5D", [(2, 5, 2), (4, 2, 4)]),
    (" SETLOC 100;X ERASE;Y ERASE +1; SETLOC 4000; DXCH X; DXCH Y; DAS X; EXTEND; DCA X; EXTEND; DCS X +1; TS X", [(5, 7, 3), (7, 6, 3), (9, 6, 3), (12, 2, 4)]),
    ("X OCT 1; CA Y;Y OCT 2", [(1, 1, 8), (1, 3, 11), (2, 2, 4)]),
    # an address to which INDEX adds is no number
    (" INDEX X; CA 0; NDX X;; MASK 1; CA 2;X OCT 1", [(6, 2, 4), (6, 5, 2)]),
    (" INDEX X;Y EQUALS 5; EBANK= 400; CA 0; TS Y; CA 0;X OCT 1", [(6, 2, 4), (6, 5, 2)]),
    # a routine without its way back; a word that is read, and executed elsewhere; a jump by Z
    (" TC F;D TCF D;F CA O;# it;E EQUALS 5;O OCT 1; TS E", [(3, 3, 4), (7, 2, 4)]),
    (" CAF C; XXALQ;C CA X;X OCT 1", []),
    ("Z EQUALS 5; CA X; TS Z;X OCT 1", []),
    # the fifth word of a vector, and one that begins another
    (" SETLOC 4004; CA X; CA X; CA X; CA X; TS X;D TCF D;X OCT 1", [(6, 2, 5)]),
    (" SETLOC 4004; CA X; CA X; CA X; TCF D; CA X;D TCF D;X OCT 1", []),
    (" SETLOC 4005; CA X; CA X; CA X; CA X; TS X;D TCF D;X OCT 1", []),
    (" SETLOC 4054; CA X; CA X; CA X; CA X; TS X;D TCF D;X OCT 1", []),
    # a switched erasable bank, while no line sets EB and while one does
    (" SETLOC 2000;V ERASE; SETLOC 4000; TS V; ADS V +1;A ECADR V;D TCF D; CA A", [(4, 5, 6), (5, 2, 4), (5, 6, 6), (6, 1, 7), (8, 2, 4)]),
    (" SETLOC 1377;U ERASE;V ERASE; SETLOC 4000; TS U; TS V;D TCF D", [(6, 5, 6)]),
    (" SETLOC 1377;U ERASE;V ERASE; SETLOC 4000; TS U +1; TS V -1;D TCF D", [(5, 5, 6)]),
    ("S EQUALS 1024D; SETLOC S;V ERASE; SETLOC 4000;W EQUALS V; TS W;D TCF D", [(6, 5, 6)]),
    (" FROB 1; SETLOC 2000;V ERAS;W ERASE; SETLOC 4000; TC V; TS W;D TCF D", []),
    (" FROB 1; SETLOC 2000;V ERAS; SETLOC 2001;W ERASE; SETLOC 4000; TC V; TS W;D TCF D", [(8, 5, 6)]),
    (" SETLOC 2000;V ERASE; SETLOC 4000; TS NONE; TS V;D TCF D", []),
    # places by which EB is set: a name in decimal, a word reserved there, one with an offset, the second of two words; and Q, which is none
    ("B = 3D; SETLOC 2000;V ERASE; SETLOC 4000; TS B; TS V;D TCF D", []),
    (" SETLOC 3;B ERASE; SETLOC 2000;V ERASE; SETLOC 4000; TS B; TS V;D TCF D", []),
    ("B EQUALS 1; SETLOC 2000;V ERASE; SETLOC 4000; TS B +2; TS V;D TCF D", []),
    (" SETLOC 2000;V ERASE; SETLOC 4000; DXCH 2; TS V;D TCF D", []),
    (" SETLOC 2000;V ERASE; SETLOC 4000; TS 2; TS V;D TCF D", [(5, 5, 6)]),
    ("K EQUALS 100; SETLOC 2000;V ERASE; SETLOC 4000; INDEX K; TS 0; TS V;D TCF D", []),
    (" SETLOC 2000;V ERASE; SETLOC 4000; TS 3; TS V;D TCF D", []),
    ("EB EQUALS 3; SETLOC 2000;V ERASE; SETLOC 4000; LXCH EB; TS V;D TCF D", []),
    # a switched bank of fixed memory, while no line sets FB and while one does; bank 0, in which a machine starts
    (" TC R;D TCF D;A FCADR R; CA A; TCF D; BANK 10;R CA B; RETURN;B OCT 1", [(1, 5, 9), (3, 1, 7)]),
    (" TC R; CA 4;D TCF D; BANK 0;R RETURN", [(2, 5, 2)]),
    (" TS FB; TC R;D TCF D; BANK 10;R RETURN;FB EQUALS 4", []),
    (" TS 3; TC S;D TCF D; BANK 8D;R RETURN;S EQUALS R", [(2, 5, 9)]),
    # a line that leads to the very next place, and to another
    (" CA Y; BANK 2; TCF 4000;Y EQUALS 100", []),
    (" CA Y; SETLOC 4001; TCF 4000;Y EQUALS 100", []),
    (" CA Y; SETLOC 4002; TCF 4000;Y EQUALS 100", [(1, 2, 4)]),
    (" CA Y; SETLOC 4001; SETLOC 4001; BANK 5; TCF 4000;Y EQUALS 100", [(1, 2, 4)]),
    (" CA Y; BANK 3; TCF 4000;Y EQUALS 100", [(1, 2, 4)]),
    (" SETLOC 4000; CA Y; BANK 2; TCF 4000;Y EQUALS 100", [(2, 2, 4)]),
    (" BANK 5; CA Y; BLOCK 2; BANK 5; TCF 4000;Y EQUALS 100", [(2, 2, 4)]),
    (" BANK 5;A 2CADR 4000; CA A; CA Y;; BANK 5;# on; BANK 5; OCT 1; TCF 4000;Y EQUALS 100", [(2, 1, 7), (4, 2, 4)]),
    (" SETLOC 4000;X 2CADR 4000; CA X; SETLOC 4003; TCF 4000", [(2, 3, 11)]),
    # a register's name at another place
    (" SETLOC 100;Q ERASE; SETLOC 4000; TS Q;D TCF D;ZERO OCT 0; CA ZERO; TCF D", [(2, 1, 7)]),
    (" SETLOC 0;A ERASE;Q ERASE; SETLOC 4000; TC A; TC Q", [(3, 1, 7)]),
    (" SETLOC 17;BRUPT ERASE;CYR ERASE; ERASE +1;EDOP ERASE;TIME2 ERASE; SETLOC 4000; TC BRUPT; TC CYR; TC EDOP; TC TIME2", [(5, 1, 7), (6, 1, 7)]),
    (" SETLOC 2;# one;; SETLOC 2;Q ERASE; SETLOC 4000; TC Q", []),
    ("Q EQUALS 2;L EQUALS 00001;BB EQUALS 4;EB = L +2; TC Q; TC L; TC BB; TC EB", [(3, 1, 7)]),
    # a routine that changes A before it keeps it, and one that keeps it; L behind a jump, where A alone is kept, and both
    (" RELINT;D TCF D; SETLOC 4024; CA X; RESUME;X OCT 1", [(4, 2, 12)]),
    (" RELINT;D TCF D; SETLOC 4024; TS 10; CA X; XCH 10; RESUME;X OCT 1", []),
    (" RELINT;D TCF D; SETLOC 4024; XCH 10; TCF H; SETLOC 4100;H EXTEND; MP X; XCH 10; RESUME;X OCT 1", [(8, 2, 12)]),
    (" RELINT;D TCF D; SETLOC 4024; DXCH 10; TCF H; SETLOC 4100;H EXTEND; MP X; DXCH 10; RESUME;X OCT 1", []),
    # Q, which TC leaves another word; where it is kept before, and where it goes back through Q
    (" RELINT;D TCF D; SETLOC 4024; XCH 10; TC S; XCH 10; RESUME;S RETURN", [(5, 2, 12)]),
    (" RELINT;D TCF D; SETLOC 4024; EXTEND; QXCH 12; TCF H; SETLOC 4100;H TC S; EXTEND; QXCH 12; RESUME;S RETURN", []),
    # an address after SETLOC to no vector, and a routine that changes no register
    (" RELINT;D TCF D; SETLOC 4025;H CA X; RESUME;X OCT 1; TCF H", []),
    (" RELINT;D TCF D; SETLOC 4024; INCR X; RESUME;X EQUALS 100", []),
    # a program that stands at a vector, with a label
    (" RELINT; TCF S; SETLOC 4010;S CA X;D TCF D; SETLOC 4024; RESUME;X OCT 1", []),
    # an interrupt that does not end, one that none lets in, one that goes back by a jump to RESUME or by INDEX 17
    (" RELINT;D TCF D; SETLOC 4024; TCF D", [(4, 2, 13)]),
    ("D TCF D; SETLOC 4024; TCF D", []),
    (" RELINT;D TCF D; SETLOC 4024; TCF H; SETLOC 4100;H RESUME", []),
    (" RELINT;D TCF D; SETLOC 4024; TCF D;BRUPT EQUALS 17; INDEX BRUPT; TCF D", []),
    # a program that runs over the vectors; one that leaves before, one with a vector of its own, and one without interrupts
    (" RELINT; CA X; TS X; CA X; TS X;D TCF D;X EQUALS 100", [(5, 2, 14)]),
    (" RELINT; CA X; TS X; TCF S; TS X;S TCF S;X EQUALS 100", []),
    (" RELINT; CA X; TS X; CA X; TS X;D TCF D; SETLOC 4024; RESUME;X EQUALS 100", []),
    (" CA X; CA X; TS X; CA X; TS X;D TCF D;X EQUALS 100", []),
    # two words at one place, at two, one of them without a name, and a table with a name for its first word
    (" SETLOC 100;X ERASE; SETLOC 100;Y ERASE; SETLOC 4000; TS X; TS Y;D TCF D", [(4, 1, 15)]),
    (" SETLOC 100;X ERASE; SETLOC 101;Y ERASE; SETLOC 4000; TS X; TS Y;D TCF D", []),
    (" SETLOC 100;X ERASE; SETLOC 100; ERASE;Y ERASE; SETLOC 4000; TS X; TS Y;D TCF D", []),
    (" SETLOC 100;X ERASE +3; SETLOC 100;Y ERASE; SETLOC 4000; TS X; TS Y;D TCF D", []),
    # a word behind a jump; a table of jumps, what fills a vector, and the next vector
    (" TCF D; CA X;D TCF D;X OCT 1", [(2, 2, 16)]),
    (" TCF D; TCF D;D TCF D", []),
    ("D TCF D; SETLOC 4024; RESUME; NOOP; NOOP; TCF D", []),
    # the ways of CCS, what TS and a routine may skip, and jumps by numbers, with an offset and after INDEX
    (" CCS X; TCF D; CA X; NOOP; TCF D;D TCF D;X EQUALS 100", []),
    (" TS X; TCF D; CA X;D TCF D;X EQUALS 100", []),
    (" TC S; TCF D; CA X;D TCF D;S RETURN;X EQUALS 100", []),
    (" TCF +2; CA X;D TCF D;X OCT 1", []),
    (" TCF D; CA X;D TCF D +1;X OCT 1", []),
    (" INDEX X; TCF D; CA X; NOOP; CA X; TCF D; CA X;D TCF D;X EQUALS 100", []),
]
# Mistakes that are no faults, a stroke between two lines, and what is said of each with --unused; of those of which nothing is, what does say it stands in front.
SILENT = [
    ("", "START CA 5|DONE TCF DONE| TCF START", [(1, 10, "W2: an operand is an address: 5 is the register or the counter at place 5, and not the number", "the number has a line of its own, behind the last jump: NAME OCT 5 (or DEC and decimal digits), and here CA NAME")]),
    ("", " TC SUB|DONE TCF DONE|SUB CA ONE|RETURN|ONE OCT 1", [
        (3, 5, "W4: after CA the program runs on to a constant, or where no word stands", "TCF or RETURN behind it, and constants elsewhere"),
        (4, 1, "W1: RETURN is an operator's name, and in the first column it is a label", "put a blank before RETURN"), (4, 1, "W8: no operand names RETURN", "")]),
    ("", "START CCS 5| TCF START| TCF START| TCF START| TCF START", [
        (1, 11, "W2: an operand is an address: 5 is the register or the counter at place 5, and not the number", "the number has a line of its own, behind the last jump: NAME OCT 5, and CA NAME and TS copy it to where CCS takes it")]),
    ("nothing: OCT 20 that is meant as twenty", " CA TWENTY|DONE TCF DONE|TWENTY OCT 20", []),
    ("nothing: three names of one place", "I EQUALS 100|J EQUALS 100| SETLOC 100|K ERASE| SETLOC 4000| TS I| TS J| TS K|DONE TCF DONE", []),
    ("", " SETLOC 100|X ERASE|Y ERASE| SETLOC 4000| DXCH X| TS Y|DONE TCF DONE", [(5, 7, "W3: DXCH takes two words, and ERASE reserves one for X", "X ERASE +1 reserves two")]),
    ("run --notes: an interrupt without a routine", " RELINT|LOOP TCF LOOP", []),
    ("", " CA FIVE| EXTEND| WRITE 1|DONE TCF DONE|FIVE OCT 5", [(3, 8, "W10: channel 1 is a register, L or Q, and nothing goes out", "another channel, or, where the register is meant, its name: L EQUALS 1, Q EQUALS 2")]),
    ("", "FIVE OCT 5| CA FIVE|DONE TCF DONE", [(1, 6, "W11: a run starts here, at 4000, and OCT is no instruction", "the program first, or a jump to it, and constants behind its last jump")]),
    ("", " SETLOC 2000|VAR ERASE| SETLOC 4000| CA FIVE| TS VAR|DONE TCF DONE|FIVE OCT 5", [
        (5, 5, "W6: TS reaches a switched erasable bank, and no line sets EB", "NAME ECADR VAR on a line of its own; before this CA NAME, and TS 3, which is EB")]),
    ("", " SETLOC 100|Q ERASE| SETLOC 4000| TS Q|DONE TCF DONE", [(2, 1, "W7: Q is a register's name, and stands for another place here", "Q EQUALS 2 is the register")]),
    ("", " TCF DONE| CA FIVE|DONE TCF DONE|FIVE OCT 5", [(2, 2, "W16: CA stands behind a jump without a label, and nothing leads here", "a label and a jump to it, or leave it out")]),
    ("", " SETLOC 100|X ERASE| SETLOC 100|Y ERASE| SETLOC 4000| TS X| TS Y|DONE TCF DONE", [(4, 1, "W15: Y stands where an earlier line reserves a word", "no SETLOC between the two; for two names of one word Y EQUALS the other")]),
    ("", " RELINT| CA X| TS X| CA X| TS X|DONE TCF DONE|X EQUALS 100", [
        (5, 2, "W14: the program runs on over the vectors, 4004 to 4053, where interrupts enter", "TCF before it, and the program from 4054 on; behind SETLOC to its vector the routine of each interrupt")]),
    ("", " RELINT|LOOP TCF LOOP| SETLOC 4024| CA X| RESUME|X OCT 1", [
        (4, 2, "W12: an interrupt's routine comes here, and CA changes A, L or Q, which it has not kept", "XCH, LXCH or QXCH of a cell before it, and again before RESUME")]),
    ("nothing: no SETLOC, which is harmless", " CA FIVE|DONE TCF DONE|FIVE OCT 5", []),
    ("", "ARUPT EQUALS 10| RELINT|LOOP TCF LOOP| SETLOC 4014| XCH ARUPT| TCF LOOP", [(5, 2, "W13: an interrupt enters here, and no line is RESUME, which ends it", "RESUME as the last instruction of the routine")]),
]
# Labels that are operators' names with --flight alone, and those that are in both languages: where W1 is told of each without and with the option.
NAMED = [
    ("COUNT OCT 1;OCTAL OCT 2; OCTAL 3", [], [(1, 1), (2, 1)]),
    ("RETURN OCT 1;2DEC OCT 2;DNCHAN OCT 3;COUNTS OCT 4", [(1, 1)], [(1, 1), (2, 1), (3, 1)]),
    ("X OCT 1;-CCS OCT 1;+3 OCT 4", [], [(2, 1)]),
]
# Flight sources with the lines of W17, with --flight alone: 2CADR of banks 030 to 037, and behind an EBANK= that an earlier one may have used up.
DOUBTED = [
    (" EBANK= 1400; 2CADR F; 2CADR F; BBCON F; -2CADR F; EBANK= 1400; 2CADR F;F TCF F", [(3, 2), (4, 2), (5, 2)]),
    (" 2CADR F; 2CADR F; BBCON F;F TCF F", []),
    (" 2CADR F; BANK 27;F TCF F", []),
    (" 2CADR F; BANK 30;F TCF F", [(1, 2)]),
    ("+3 2CADR F; EBANK= 1400; 2CADR F; 2CADR F; BANK 37;F TCF F", [(1, 4), (3, 2), (4, 2)]),
    (" 2CADR F; BANK 40;F TCF F", []),
    (" 2CADR F; FROB; BANK 30;F TCF F", []),
    (" GENADR F; 2DEC 1; OCT -1; VN 0616; CADR 10000; BANK 5;F TCF F", []),
]
# A fault and warnings on one line and beside it.
BOTH = " CA 5;CA FIV; AD 6"
TOLD = re.compile(rb"^(.*):(\d+):(\d+): error E(\d+): (.+)$")
FAULT = re.compile(rb"^agcws: E(\d+) LINE (\d+)\n$")
WORDS = ["CA", "TS", "TC", "TCF", "EXTEND", "MP", "READ", "INDEX", "OCT", "DEC", "SETLOC", "BANK", "BLOCK", "ERASE", "EQUALS", "EBANK=", "2CADR", "CADR", "ECADR", "FROB", "NOOP", "X", "Y", "Z", "X", "LONGLABEL",
         "5", "100", "4000", "18", "7777", "2000", "5777", "+1", "-1", "-5", "1.5", "44", "#", "\xb5", "\r", "$", "3777", "100000"]


def told_by(program, path):
    """The status of a check, and what it tells: line, column and number of each, and the count."""
    ran = subprocess.run([program, "check", path], capture_output=True, timeout=300)
    rows = [TOLD.match(it) for it in ran.stdout.split(b"\n")]
    found = [tuple(int(it[i]) for i in (2, 3, 4)) for it in rows if it and it[1] == path.encode()]
    return ran.returncode, found, ran.stdout.split(b"\n")[-2:-1], ran.stderr


def counted(count, noun):
    return f"{count} {noun}{'' if count == 1 else 's'}"


WARNED = re.compile(rb"^(.*):(\d+):(\d+): (error E|warning W)(\d+): (.+)$")


def warned_by(program, path, *options):
    """The status of a check, and all that it tells: line, column, and the number behind its letter; and the count."""
    ran = subprocess.run([program, "check", *options, path], capture_output=True, timeout=300)
    rows = [WARNED.match(it) for it in ran.stdout.split(b"\n")]
    found = [(int(it[2]), int(it[3]), it[4][-1:].decode() + it[5].decode()) for it in rows if it and it[1] == path.encode()]
    return ran.returncode, found, ran.stdout.split(b"\n")[-2:-1], ran.stderr


def said_by(program, path, *before, kind="error"):
    """What a check says of each fault of a file, or of each warning, after others: line and column, the number with its words, and the cure."""
    ran = subprocess.run([program, "check", *before, path], capture_output=True, timeout=300)
    found = []
    for row in ran.stdout.decode("latin-1").split("\n"):
        if said := re.match(re.escape(path) + r":(\d+):(\d+): (\w+) (\w\d+: .+)$", row):
            found.append((said[3], int(said[1]), int(said[2]), said[4], ""))
        elif row.startswith("      = "):
            found[-1] = *found[-1][:4], row[8:]
    return [it[1:] for it in found if it[0] == kind]


def written(path, text):
    with open(path, "wb") as file:
        file.write(text)
    return path


def rows_explained(program, number):
    """What is explained of a number, as E17: each mistake, the source that draws it, and its line."""
    text = subprocess.run([program, "explain", number], capture_output=True, text=True, timeout=300).stdout
    for part in text.split("\n- ")[1:]:
        mistake, *rest = part.rstrip("\n").split("\n")
        source = [it for it in rest if it.startswith("    ") or it.startswith("  > ")]
        lines = [str(i) for i, it in enumerate(source, 1) if it.startswith("  > ")]
        yield mistake, ";".join(it[4:] for it in source), "".join(lines)


def plain(text):
    """A row of the manual without what makes it a table's."""
    return re.split(r"\. Cure(?:, of a source alone)?: ", text)[0].replace("`", "")


def rows_of_refusals():
    with open(f"{ROWS}/refusals.txt", encoding="utf-8") as file:
        return file.read()


# The kinds of `run --notes`, each with where the manual tells of it.
KINDS = {
    "QUOTIENT": 'section 8, "DV gives 37777, or 40000"', "SKIP": "section 8.5", "NOWORD": "section 8.4", "ERASABLE": "section 8.10",
    "NOHANDLER": 'section 8, "INT is 1"', "OTHERBANK": "section 8.6", "FIXEDBANK": "section 8.6", "INSIDE": "section 8.7", "WAITING": "section 8.1",
    "NOTKEPT": 'section 8, "a word is wrong now and then"',
    "MINUSZERO": 'section 8, "CCS goes three words on"', "UNREAD": "section 6", "OVERWRITTEN": "section 6",
    "SHARED": 'section 8, "INT is 1"',
}


def sources(count, seed):
    chosen = random.Random(seed)
    for _ in range(count):
        lines = []
        for _ in range(chosen.randint(1, 12)):
            lines.append(("" if chosen.random() < 0.4 else " ") + " ".join(chosen.choice(WORDS) for _ in range(chosen.randint(1, 3))))
        yield "\n".join(lines).encode("latin-1") + b"\n"


# The sources and the feeds of all tables, whose objects are compared with their texts too (test_check_json.py).
SHOWN = [(it[1] if table is SILENT else it[0]) for table in (MISTAKES, WARNINGS, SAID, FORMS, SILENT, NAMED) for it in table]
SHOWN = [text.replace(";" if "|" not in text else "|", "\n").encode("latin-1") + b"\n" for text in SHOWN]
SHOWN_FEEDS = [it[0].replace("|", "\n").encode() + b"\n" for it in FEEDS]


class Check(Case):
    """Mistakes, warnings, files, and the rows of explain."""

    def test_warnings(self):
        path = f"{self.room}/warnings.agc"
        for shown, wanted in WARNINGS:
            with open(path, "wb") as file:
                file.write(shown.replace(";", "\n").encode() + b"\n")
            for options, drawn in (["--unused"], wanted), ([], [it for it in wanted if it[2] != 8]):
                _, found, count, errors = warned_by(PROGRAM, path, *options)
                warned = [it for it in found if it[2][0] == "W"]
                rows = [(line, column, f"W{number}") for line, column, number in drawn]
                faults = len(found) - len(warned)
                with self.subTest(f"warnings {options} of {shown}"):
                    self.assertEqual((warned, count, errors), (rows, [f"{counted(faults, 'error')}, {counted(len(rows), 'warning')}".encode()], b""))
        for shown, *wanted in NAMED:
            written(path, shown.replace(";", "\n").encode() + b"\n")
            got = [[it[:2] for it in warned_by(PROGRAM, path, *options)[1] if it[2] == "W1"] for options in ((), ("--flight",))]
            with self.subTest(f"W1 of {shown}"):
                self.assertEqual(got, wanted)
        for shown, wanted in DOUBTED:
            written(path, shown.replace(";", "\n").encode() + b"\n")
            got = [[it[:2] for it in warned_by(PROGRAM, path, *options)[1] if it[2] == "W17"] for options in ((), ("--flight",))]
            with self.subTest(f"W17 of {shown}"):
                self.assertEqual(got, [[], wanted])
        with open(path, "wb") as file:
            file.write(BOTH.replace(";", "\n").encode() + b"\n")
        wanted = 1, [(1, 5, "W2"), (2, 4, "E15"), (2, 1, "W1"), (3, 2, "W4"), (3, 5, "W2")], [b"1 error, 4 warnings"], b""
        got = warned_by(PROGRAM, path)
        with self.subTest("warnings among faults"):
            self.assertEqual(got, wanted)

    def test_no_warning_in_examples(self):
        """No example that runs draws a warning."""
        names = sorted({line.split()[0] for line in open(f"{EXAMPLES}/runs.txt") if line.strip() and not line.startswith("#")})
        for name in [*names, "flight/downlist", "flight/bankcall"]:
            path = f"{EXAMPLES}/{name}.agc"
            ran = subprocess.run([PROGRAM, "check", *(["--flight"] if "/" in name else []), path], capture_output=True, timeout=300)
            with self.subTest(f"no warning in {name}.agc"):
                self.assertEqual((ran.returncode, ran.stdout), (0, b"0 errors, 0 warnings\n"))

    def test_mistakes(self):
        path = f"{self.room}/mistakes.agc"
        for shown, wanted in MISTAKES:
            with open(path, "wb") as file:
                file.write(shown.replace(";", "\n").encode("latin-1") + b"\n")
            count = counted(len(wanted), "error").encode()
            status, found, end, errors = told_by(PROGRAM, path)
            with self.subTest(f"check of {shown}"):
                self.assertTrue((status, found, errors) == (int(bool(wanted)), wanted, b"") and end[0].startswith(count + b", "), f"wanted {wanted}, got {found} {end}")

    def test_what_is_said(self):
        path = f"{self.room}/said.agc"
        for shown, wanted in SAID:
            with open(path, "wb") as file:
                file.write(shown.replace("|", "\n").encode("latin-1") + b"\n")
            got = said_by(PROGRAM, path)
            with self.subTest(f"what check says of {shown}"):
                self.assertEqual(got, wanted)

    def test_forms(self):
        for shown, *wanted in FORMS:
            path = written(f"{self.room}/form.agc", shown.replace("|", "\n").encode() + b"\n")
            got = [next(iter(said_by(PROGRAM, path, *options)), None) for options in ((), ("--flight",))]
            with self.subTest(f"what check says of the form {shown}"):
                self.assertEqual(got, wanted)

    def test_silent(self):
        for elsewhere, shown, wanted in SILENT:
            path = written(f"{self.room}/silent.agc", shown.replace("|", "\n").encode() + b"\n")
            got = said_by(PROGRAM, path, "--unused", kind="warning")
            with self.subTest(f"what check says of {shown}"):
                self.assertEqual((got, bool(wanted)), (wanted, not elsewhere))
            with self.subTest(f"asm takes {shown}"):
                self.assertEqual(subprocess.run([PROGRAM, "asm", path, "/dev/null"], capture_output=True, timeout=300).returncode, 0)
            if elsewhere.startswith("run --notes"):
                notes = subprocess.run([PROGRAM, "run", "--notes", path, written(f"{self.room}/silent.feed", b"5 RUPT 3\n"), "40"], capture_output=True, timeout=300).stderr
                with self.subTest(f"run --notes of {shown}"):
                    self.assertTrue(notes.startswith((b"NOTE NOHANDLER", b"NOTE INSIDE")), str(notes))

    def test_feeds(self):
        source = written(f"{self.room}/good.agc", b" OCT 1\n")
        for shown, wanted in FEEDS:
            feed = written(f"{self.room}/said.feed", shown.replace("|", "\n").encode() + b"\n")
            got = said_by(PROGRAM, feed, source)
            with self.subTest(f"what check says of the feed {shown[:40]}"):
                self.assertEqual(got, [wanted] if wanted else [])
            refused = subprocess.run([PROGRAM, "run", source, feed, "0"], capture_output=True, timeout=300).stderr
            with self.subTest(f"check and run of the feed {shown[:40]}"):
                self.assertTrue(bool(refused) == bool(wanted) and (not wanted or refused.startswith(b"agcws: " + wanted[2].partition(":")[0].encode())), f"{refused}")

    def test_files(self):
        """What is told of several files, what stays told where a file cannot be read, and files of another kind."""
        source, good, bad = written(f"{self.room}/a.agc", b" TC FIV\n"), written(f"{self.room}/good.feed", b"5 RUPT 1\n"), written(f"{self.room}/bad.feed", b"5 RUPT 11\n")
        ran = lambda *files: subprocess.run([PROGRAM, "check", *files], capture_output=True, timeout=300)
        of_source = f"{source}:1:5: error E17: no line defines FIV\n    1 |  TC FIV\n      |     ^^^\n      = FIV in the first column of the line to which TC is to lead\n"
        of_feed = f"{bad}:1:8: error E30: 11 is no interrupt, which are 1 to 10\n    1 | 5 RUPT 11\n      |        ^^\n"
        got = ran(source, bad, good, bad)
        with self.subTest("check of a source and three feeds"):
            self.assertEqual((got.returncode, got.stdout.decode(), got.stderr), (1, of_source + of_feed + of_feed + "3 errors, 0 warnings\n", b""))
        got = ran(source, bad, self.room)
        with self.subTest("check of a feed that cannot be read"):
            self.assertEqual((got.returncode, got.stdout.decode(), got.stderr), (3, of_source + of_feed, f"{self.room}: error E6: a file could not be opened or read\n".encode()))
        got = ran(source, bad, f"{self.room}/none")
        with self.subTest("check of a feed that is not there"):
            self.assertEqual((got.returncode, got.stdout, got.stderr), (3, b"", f"{self.room}/none: error E6: a file could not be opened or read\n".encode()))
        got = ran(f"{self.room}/none", bad)
        with self.subTest("check of a source that is not there"):
            self.assertEqual((got.returncode, got.stdout, got.stderr), (3, b"", f"{self.room}/none: error E6: a file could not be opened or read\n".encode()))
        got = ran(source, bad, written(f"{self.room}/long.feed", b"#" * 8388609))
        with self.subTest("check of a feed that is too long"):
            self.assertEqual((got.returncode, got.stdout.decode(), got.stderr), (1, of_source + of_feed, f"{self.room}/long.feed: error E34: a source, a feed or a table of names has more than 8,388,608 bytes\n".encode()))
        image = f"{self.room}/a.rope"
        subprocess.run([PROGRAM, "asm", written(f"{self.room}/one.agc", b" OCT 1\n"), image], capture_output=True, check=True)
        kinds = {
            (image,): f"{image}: this is a rope image, and no source: run, trace, cover and debug take it with --image",
            (good,): f"{good}: this is a feed, and no source: it stands after the source",
            (f"{self.room}/one.agc", image): f"{image}: this is a rope image, and no feed: run, trace, cover and debug take it with --image, before the feed",
            (f"{self.room}/one.agc", source): f"{source}: this is a source, and no feed: it stands first",
        }
        for files, wanted in kinds.items():
            got = ran(*files)
            lines = got.stdout.decode("latin-1").split("\n")
            with self.subTest(f"check of a file of another kind: {wanted[-40:]}"):
                self.assertEqual((got.returncode, lines[-3], lines.count(wanted)), (1, wanted, 1))
        longest = max(map(len, ran(image).stdout.split(b"\n")))
        with self.subTest("what check shows of the lines of an image"):
            self.assertTrue(longest < 200, str(longest))
        for files in ((source, good), (f"{self.room}/one.agc", good)):
            with self.subTest("check of files of their kinds"):
                self.assertNotIn(b": this is ", ran(*files).stdout, f"{ran(*files)}")

    def test_excerpt(self):
        path = f"{self.room}/excerpt.agc"
        with open(path, "wb") as file:
            file.write(b"X RELINT\n\tTC\tFIV # \xb5\n TC FIV +1\n")
        wanted = f"""{path}:2:11: error E10: this byte is not ASCII, and a line holds ASCII alone, its comment too
    2 | \tTC\tFIV # ?
      | \t  \t      ^
{path}:3:5: error E17: no line defines FIV
    3 |  TC FIV +1
      |     ^^^
      = FIV in the first column of the line to which TC is to lead
2 errors, 0 warnings
""".encode()
        got = subprocess.run([PROGRAM, "check", path], capture_output=True, timeout=300)
        with self.subTest("what check writes"):
            self.assertEqual((got.returncode, got.stdout, got.stderr), (1, wanted, b""), f"got {got}")

    def test_rows_of_explain(self):
        """What `explain` tells is what rows/refusals.txt has."""
        manual = rows_of_refusals()
        rows = re.findall(r"^\| E(\d+) \| (.*) \| (.*) \| (\d*) ?\|$", manual, re.M)
        for number in sorted({int(it[0]) for it in rows if int(it[0]) >= 10 and it[0] != "34"}):
            wanted = [(plain(mistake), "" if source.startswith("(") else source.strip("`").replace("\xb5", "\\xC2\\xB5"), line) for n, mistake, source, line in rows if int(n) == number]
            got = list(rows_explained(PROGRAM, f"E{number}"))
            with self.subTest(f"explain E{number} and refusals.txt"):
                self.assertEqual(got, wanted)
        headings = re.findall(r"^\| E(\d+) \| ([^|]*) \| \d \|$", manual, re.M)
        with self.subTest("the refusals of images, memory and devices"):
            self.assertEqual(sorted(int(it[0]) for it in headings), [*range(2, 8), 34])
        for number, meaning in headings:
            got = subprocess.run([PROGRAM, "explain", f"E{number}"], capture_output=True, text=True, timeout=300).stdout.split("\n")[0]
            with self.subTest(f"explain E{number} and refusals.txt"):
                self.assertEqual(got, f"E{number}: {meaning}")

    def test_rows_of_warnings(self):
        """Each warning of rows/refusals.txt is drawn on its line."""
        rows = re.findall(r"^\| W(\d+) \| (.*) \| `(.*)` \| (\d+) \|$", rows_of_refusals(), re.M)
        with self.subTest("the rows of warnings"):
            self.assertEqual([int(it[0]) for it in rows], [*range(1, 18)])
        for number, mistake, source, line in rows:
            got = list(rows_explained(PROGRAM, f"W{number}"))
            with self.subTest(f"explain W{number} and refusals.txt"):
                self.assertEqual(got, [(plain(mistake), source, line)])
            _, found, _, _ = warned_by(PROGRAM, written(f"{self.room}/row.agc", source.replace(";", "\n").encode() + b"\n"), "--unused", *(["--flight"] if number == "17" else []))
            with self.subTest(f"the row of W{number}"):
                self.assertIn((int(line), f"W{number}"), {(it[0], it[2]) for it in found}, str(found))

    def test_numbers(self):
        ran = lambda *words: subprocess.run([PROGRAM, "explain", *words], capture_output=True, timeout=300)
        numbers = [int(it) for it in re.findall(rb"^E(\d+): .", ran().stdout, re.M)]
        with self.subTest("explain lists the numbers"):
            self.assertEqual(numbers, [*range(2, 8), *range(10, 27), *range(30, 37), 40, 41, 42, 50, 51, 52])
        with self.subTest("explain 17 is explain E17"):
            self.assertTrue(ran("17") == ran("E17") or ran("17").stdout == ran("E17").stdout)
        warned = [int(it) for it in re.findall(rb"^W(\d+): .", ran().stdout, re.M)]
        with self.subTest("explain lists the numbers of warnings"):
            self.assertEqual(warned, [*range(1, 18)])
        for word in ("99", "E1", "X", "E", "256", "W", "W0", "W18", "w4"):
            got = ran(word)
            with self.subTest(f"explain {word}"):
                self.assertEqual((got.returncode, got.stdout, got.stderr), (2, b"", b"error: no refusal, no warning and no note is called so; agcws explain lists them\n"))

    def test_kinds_of_notes(self):
        """Each kind of notes is explained: a sentence, causes with cures, and where the manual tells of it, which it does."""
        with open(f"{ROOT}/docs/MANUAL.md", encoding="utf-8") as file:
            manual = file.read()
        with open(f"{ROOT}/crates/notes/specs/RunNotes.antt", encoding="utf-8") as file:
            kinds = set(re.findall(r'codes "(?:NOTE )?([A-Z]{4,}) *(?:STEP )?"', file.read())) - {"NOTE", "STEP"}
        with self.subTest("each kind of notes is explained"):
            self.assertTrue(kinds <= set(KINDS), str(kinds - set(KINDS)))
        listed = subprocess.run([PROGRAM, "explain"], capture_output=True, text=True, timeout=300).stdout
        for kind, where in KINDS.items():
            got = subprocess.run([PROGRAM, "explain", kind], capture_output=True, text=True, timeout=300)
            heading, *causes, last = got.stdout.split("\n\n")
            rest = "\n\n".join(causes) if causes else heading.partition("\n")[2]
            has_cures = rest.count("- ") == rest.count("  Cure: ") > 0
            with self.subTest(f"explain {kind}"):
                self.assertTrue(got.returncode == 0 and heading.startswith(f"{kind}: ") and has_cures and last == f"Manual, {where}.\n", got.stdout)
            with self.subTest(f"explain lists {kind}"):
                self.assertIn(heading.split("\n")[0] + "\n", listed, listed)
            found = re.fullmatch(r'section (\d+)(?:\.(\d+))?(?:, "(.*)")?', where)
            section, part, words = found.groups()
            heads = f"\n## {section}. " in manual and (part is None or f"\n### {section}.{part} " in manual)
            with self.subTest(f"the row of {kind}"):
                self.assertTrue(heads and (words is None or words.replace("an index leads past its table", "an index leads past its table") in manual), where)

    def test_numbers_of_sessions(self):
        """Each reply of a session that begins with E and a number from 40 on is explained, with a cure."""
        for number in (40, 41, 42, 50, 51, 52):
            got = subprocess.run([PROGRAM, "explain", f"E{number}"], capture_output=True, text=True, timeout=300)
            with self.subTest(f"explain E{number}"):
                self.assertTrue(got.returncode == 0 and got.stdout.count("- ") == got.stdout.count("  Cure: ") > 0, got.stdout)

    def test_asm_and_check_agree(self):
        """Where `asm` takes a source `check` tells nothing; and what `asm` tells is among what `check` does."""
        path, wrong, refused = f"{self.room}/agreement.agc", [], 0
        for text in sources(400, "agreement"):
            with open(path, "wb") as file:
                file.write(text)
            fault = FAULT.match(subprocess.run([PROGRAM, "asm", path, "/dev/null"], capture_output=True, timeout=300).stderr)
            status, found, _, _ = told_by(PROGRAM, path)
            refused += bool(fault)
            if status != int(bool(fault)) or bool(found) != bool(fault) or fault and (int(fault[2]), int(fault[1])) not in {(it[0], it[2]) for it in found}:
                wrong.append((text, fault, found))
        with self.subTest(f"check and asm of {400} sources"):
            self.assertTrue(not wrong and 0 < refused < 400, f"{refused} refused, {len(wrong)} wrong: {wrong[:1]}")


if __name__ == "__main__":
    unittest.main()
