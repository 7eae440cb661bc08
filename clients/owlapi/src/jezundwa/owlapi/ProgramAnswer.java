package jezundwa.owlapi;

import java.util.List;

/** What a call of the program printed, and how it ended. */
record ProgramAnswer(ProgramStatus status, List<String> lines, String faults) {
    String firstLine() {
        return lines.isEmpty() ? "" : lines.get(0);
    }

    boolean isWhole() {
        return status != ProgramStatus.UNDECIDED;
    }
}
