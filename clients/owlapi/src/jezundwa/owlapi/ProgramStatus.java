package jezundwa.owlapi;

/** The statuses with which the program ends. */
enum ProgramStatus {
    DONE, REJECTED, BAD_WORDS, BAD_TEXT, OUTSIDE, LIMIT, READ_FAULT, WRITE_FAULT, UNDECIDED, NO_MEMORY, OTHER;

    static ProgramStatus of(int number) {
        return number >= 0 && number < OTHER.ordinal() ? values()[number] : OTHER;
    }

    /** Whether the program gave an answer, or the part of one that its budget sufficed for. */
    boolean isAnswer() {
        return this == DONE || this == REJECTED || this == UNDECIDED;
    }

    /** What is thrown in place of an answer. */
    ProgramException exception(String message) {
        return switch (this) {
            case BAD_WORDS -> new ProgramException.BadWords(message);
            case BAD_TEXT -> new ProgramException.BadText(message);
            case OUTSIDE -> new ProgramException.OutsideLanguage(message);
            case LIMIT -> new ProgramException.LimitPassed(message);
            case READ_FAULT -> new ProgramException.ReadFault(message);
            case WRITE_FAULT -> new ProgramException.WriteFault(message);
            case NO_MEMORY -> new ProgramException.NoMemory(message);
            case DONE, REJECTED, UNDECIDED, OTHER -> new ProgramException.Crashed(message);
        };
    }
}
