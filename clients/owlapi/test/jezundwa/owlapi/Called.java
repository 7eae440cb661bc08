package jezundwa.owlapi;

import static org.junit.Assume.assumeTrue;

import java.util.ArrayList;
import java.util.List;
import org.semanticweb.owlapi.model.OWLAxiom;
import org.semanticweb.owlapi.model.OWLOntology;

/** The program under test, which the system property {@code jezundwa.program} names. */
final class Called {
    /** In milliseconds; a machine that proves beside the tests may be slow, and what hangs has to end. */
    static final long LONGEST = 300_000;

    private Called() {}

    static JezundwaConfiguration configuration() {
        return new JezundwaConfiguration();
    }

    static JezundwaReasoner reasoner(OWLOntology ontology) {
        return new JezundwaReasonerFactory().createReasoner(ontology, configuration());
    }

    /** What {@code isEntailed} says of each of some axioms, by one call of the program for all of them. */
    static List<Boolean> entailed(JezundwaReasoner reasoner, List<OWLAxiom> axioms) {
        return reasoner.operation(current -> {
            List<Question> questions = new ArrayList<>();
            List<Integer> ends = new ArrayList<>();
            for (OWLAxiom axiom : axioms) {
                questions.addAll(JezundwaReasoner.questions(current, axiom));
                ends.add(questions.size());
            }
            List<Boolean> answers = current.follow(questions);
            List<Boolean> entailed = new ArrayList<>();
            int start = 0;
            for (int end : ends) {
                entailed.add(!answers.subList(start, end).contains(false));
                start = end;
            }
            return entailed;
        });
    }

    /** For tests of many calls, which are left to the long form. */
    static void requireLongForm() {
        assumeTrue("only the long form tries it: clients/test --long", isLongForm());
    }

    /** How many random ontologies a test takes: few in the gate. */
    static int many(int inGate, int atLength) {
        return isLongForm() ? atLength : inGate;
    }

    static boolean isLongForm() {
        return Boolean.getBoolean("jezundwa.long");
    }
}
