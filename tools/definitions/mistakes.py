"""Wrong definitions, each a change of one text, which the comparisons must find."""

# A name, the file, the text and what it becomes, and the commands of the suite in which it shows, or `steps` or `sources`.
MISTAKES = (
    ("ADC adds 1 whatever the carry is", "m11_cpu_arithmetic/specs/Singles.antt", "sum size value (from_bool codes.carry)", "sum size value 1", "steps"),
    ("RTT is traced at once", "m11_cpu_machine/specs/Execution.antt", "n. Comes (Ok Untraced, n)) m", "n. Comes (Ok Next, n)) m", "steps"),
    ("SXT sets V", "m11_cpu_arithmetic/specs/Singles.antt", "    overflow = false;\n    carry = codes.carry;\n  };\n}\n\n-- ROR",
     "    overflow = true;\n    carry = codes.carry;\n  };\n}\n\n-- ROR", "steps"),
    ("SP steps by 1 for a byte", "m11_cpu_machine/specs/Addressing.antt", "step_of Byte Sp = 2", "step_of Byte Sp = 1", "steps"),
    ("a word written at 177776 changes T", "m11_cpu_machine/specs/Status.antt", "record (status_of bits) { trace = old.trace }", "status_of bits", "steps"),
    ("a byte put into a register clears the high one", "m11_cpu_machine/specs/Addressing.antt", "without_low_byte word = word / 256 * 256",
     "without_low_byte word = 0", "steps"),
    ("an undefined global has the value 2", "m11_link_text/specs/Relocation.antt", "unwrap_or (found.value name) 0", "unwrap_or (found.value name) 2", "link"),
    ("the bit of OVR is 010", "m11_obj/specs/Attributes.antt", "overlaid_bit = 0o004", "overlaid_bit = 0o010", "link"),
    ("a contribution isn't rounded up to even", "m11_link_layout/specs/Sections.antt", "rounded size = size + size % 2", "rounded size = size", "link"),
    ("the flag E is F's", "m11_asm/specs/Written.antt", "flag_E = 0o10", "flag_E = 0o20", "asm"),
    (".IRPC opens no body", "m11_unfold_rules/specs/Taking.antt", "  | Some word.Irpc ↦ Opens\n", "", "asm"),
    ("a form feed is no blank", "m11_scan/specs/Lines.antt", "if byte == 0o14 then 0o40 else byte", "byte", "asm"),
)
