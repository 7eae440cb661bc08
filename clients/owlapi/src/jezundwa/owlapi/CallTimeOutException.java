package jezundwa.owlapi;

import java.util.List;
import org.semanticweb.owlapi.reasoner.TimeOutException;

/** The program took longer than the configuration allows, and was ended. */
public final class CallTimeOutException extends TimeOutException {
    private static final long serialVersionUID = 1L;

    private final transient List<String> known;

    CallTimeOutException(String question, long milliseconds, List<String> known) {
        super("no answer within " + milliseconds + " ms to: " + question + Known.told(known));
        this.known = List.copyOf(known);
    }

    /** The lines of the answer that were there before. */
    public List<String> known() {
        return known;
    }
}
