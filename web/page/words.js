// What flags and faults mean, in words.

/** The flags of lines, as docs/LANGUAGE.md has them. */
export const FLAGS = {
  A: 'a value, an argument or an attribute that isn’t allowed here, or none; or a branch out of reach',
  B: 'a word at an odd location: put .EVEN before it',
  D: 'a name that is defined twice',
  E: 'there is no .END, or a body or a condition before it isn’t closed',
  I: 'a character that means nothing',
  L: 'more than 132 characters',
  M: 'a label, or an assignment, of a name that is a label already',
  N: 'a digit outside of the radix: decimal numbers end with a point',
  O: 'an end, a switch or .MEXIT that belongs to nothing, or .NARG outside of macros',
  P: 'the source has changed between its two readings',
  Q: 'something is missing, or left over, as behind an operator that isn’t known',
  R: 'a register where none may be, or none where one has to be',
  T: 'a number that is too large',
  U: 'a name that isn’t known, or that comes too late',
};

const FAULTS = [
  [/NoMemory/, 'The browser gave no memory for it.'],
  [/ASM 6 TooMuchSource/, 'A module has at most 4,194,304 bytes and 65,535 lines.'],
  [/ASM 3 TooManySymbols/, 'A module has at most 4,096 names and 16,384 local symbols.'],
  [/ASM 4 TooManySections/, 'A module has at most 64 sections.'],
  [/Unfold 1 TooDeep/, 'At most 16 macros and repeats may be open, one in another. Does a macro call itself?'],
  [/Unfold 2 TooManyLines/, 'A module has at most 200,000 lines, with all expansions.'],
  [/Unfold 3 TooMuchText/, 'The bodies of macros have at most 65,536 bytes together.'],
  [/Unfold 4 TooManyMacros/, 'A module has at most 256 names of macros.'],
  [/LINK 9 TooLarge/, 'The program would go beyond 157776, where the registers of devices are.'],
  [/LINK 10 /, 'A link has at most 8,192 globals.'],
  [/LINK 11 /, 'A link has at most 256 names of sections.'],
  [/LINK 12 /, 'A link has at most 32 modules.'],
  [/LINK (?:3|4|5|6|7|8|13|14) /, 'An object is malformed: is it an object of RT-11?'],
  [/SIM 10 OutsideMemory/, 'The tape stores a byte past the memory.'],
  [/SIM (?:2|3|5|6|8|9) /, 'This isn’t a whole tape.'],
  [/USAGE 3 /, 'An address is a number in octal, up to 177777.'],
  [/USAGE 4 /, 'The address has to be even.'],
  [/USAGE 5 /, 'An address is at most 157776.'],
];

const LACKING = [
  [/^[^;"]*\.MCALL\b/i, 'There is no .MCALL: put the macros into a file of their own, and give it the role “before each module” in Files. '
    + 'Examples has such a program, with calls of RT-11.'],
  [/^[^;"]*\.INCLUDE\b/i, 'There is no .INCLUDE: give the file the role “before each module” in Files. '
    + 'Examples has a program with shared definitions.'],
];

/** The meaning of a line's flags, each with its letter. */
export function flagWords(flags) {
  return [...flags].map(flag => [flag, FLAGS[flag] ?? '']);
}

/** What to do about a directive that this assembler lacks, or nothing. */
export function adviceFor(text) {
  return LACKING.find(([form]) => form.test(text))?.[1] ?? '';
}

/** What a fault line means, or nothing. */
export function faultWords(line) {
  return FAULTS.find(([form]) => form.test(line))?.[1] ?? '';
}

/** What to do about a message of the linker, or nothing. */
export function linkWords(line) {
  if (line.startsWith('UNDEFINED GLOBAL')) return 'no module defines this name: a misspelt operator or label, a macro that is missing, or a module';
  if (line.startsWith('MULTIPLE DEFINITION')) return 'two modules define this name; the first definition counts';
  if (line.startsWith('DIFFERENT ATTRIBUTES')) return 'two modules give this section different attributes';
  return '';
}
