package jezundwa.owlapi;

import org.semanticweb.owlapi.reasoner.ReasonerInternalException;

/** The program gave no answer to use: a class for each status that it may end with. */
public abstract class ProgramException extends ReasonerInternalException {
    private static final long serialVersionUID = 1L;

    ProgramException(String message) {
        super(message);
    }

    /** The program is not there, or cannot be started. */
    public static final class NotFound extends ProgramException {
        private static final long serialVersionUID = 1L;

        NotFound(String message) {
            super(message);
        }
    }

    /** Status 2: the words of the call are none that the program knows. */
    public static final class BadWords extends ProgramException {
        private static final long serialVersionUID = 1L;

        BadWords(String message) {
            super(message);
        }
    }

    /** Status 3: ontology or question are damaged. */
    public static final class BadText extends ProgramException {
        private static final long serialVersionUID = 1L;

        BadText(String message) {
            super(message);
        }
    }

    /** Status 4: ontology or question have a construct that is outside of the language. */
    public static final class OutsideLanguage extends ProgramException {
        private static final long serialVersionUID = 1L;

        OutsideLanguage(String message) {
            super(message);
        }
    }

    /** Status 5: a limit of the program is passed. */
    public static final class LimitPassed extends ProgramException {
        private static final long serialVersionUID = 1L;

        LimitPassed(String message) {
            super(message);
        }
    }

    /** Status 6: the program could not read its input. */
    public static final class ReadFault extends ProgramException {
        private static final long serialVersionUID = 1L;

        ReadFault(String message) {
            super(message);
        }
    }

    /** Status 7: the program could not write its output. */
    public static final class WriteFault extends ProgramException {
        private static final long serialVersionUID = 1L;

        WriteFault(String message) {
            super(message);
        }
    }

    /** Status 9: there was not enough memory. */
    public static final class NoMemory extends ProgramException {
        private static final long serialVersionUID = 1L;

        NoMemory(String message) {
            super(message);
        }
    }

    /** The program ended in a way of its own: it was killed, or is another program. */
    public static final class Crashed extends ProgramException {
        private static final long serialVersionUID = 1L;

        Crashed(String message) {
            super(message);
        }
    }
}
