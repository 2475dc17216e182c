/* The library's code in a section of its own, whose beginning and end a driver can name. */
SECTIONS { lanyardrove_text : { *(.text .text.*) } }
