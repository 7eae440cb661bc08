package jezundwa.owlapi;

import static org.junit.Assert.assertTrue;

import java.io.IOException;
import java.nio.file.Files;
import java.nio.file.Path;
import java.util.List;
import java.util.Set;
import java.util.function.Supplier;
import org.semanticweb.owlapi.apibinding.OWLManager;
import org.semanticweb.owlapi.model.OWLAxiom;
import org.semanticweb.owlapi.model.OWLDataFactory;
import org.semanticweb.owlapi.model.OWLOntology;

/**
 * Decides between Konclude and the program where they differ. Konclude may be wrong too, so what counts is what the
 * program can show for its answer, looked at by code that the program has no part in.
 */
final class Judge {
    private static final OWLDataFactory FACTORY = OWLManager.getOWLDataFactory();

    private final OWLOntology ontology;
    private final JezundwaExplanations explanations;

    Judge(OWLOntology ontology, JezundwaReasoner reasoner) {
        this.ontology = ontology;
        this.explanations = new JezundwaExplanations(reasoner);
    }

    /** That everything follows, which is what an inconsistent ontology comes to. */
    static OWLAxiom inconsistency() {
        return FACTORY.getOWLSubClassOfAxiom(FACTORY.getOWLThing(), FACTORY.getOWLNothing());
    }

    /** Fails where Konclude says otherwise than the program, unless the program shows that it is right. */
    void compare(String message, OWLAxiom axiom, boolean ofKonclude, boolean ofProgram) {
        if (ofKonclude == ofProgram) {
            return;
        }
        String disputed = message + " " + axiom;
        if (ofProgram) {
            assertTrue(disputed + ": follows for the program, and not for Konclude", isShownToFollow(axiom));
            System.out.println("Konclude differs, justification checked: " + disputed);
        } else {
            assertTrue(disputed + ": follows for Konclude, and not for the program", isShownNotToFollow(axiom));
            System.out.println("Konclude differs, model checked: " + disputed);
        }
    }

    /** Whether the second checker accepts a model in which the whole ontology is true, too, and the axiom is not. */
    boolean isShownNotToFollow(OWLAxiom axiom) {
        List<Certificate> certificates = explanations.certificates(axiom);
        Certificate last = certificates.get(certificates.size() - 1);
        return !last.isOfEntailment() && isAccepted(last) && explanations.counterexample(axiom).map(Truth::new)
            .filter(truth -> truth.ofAll(ontology) && !truth.of(axiom)).isPresent();
    }

    /**
     * Whether the second checker accepts each refutation, and Konclude itself says that the axiom follows from one of
     * the justifications alone, as it is or in negation normal form: then it contradicts itself.
     */
    boolean isShownToFollow(OWLAxiom axiom) {
        return explanations.certificates(axiom).stream().allMatch(one -> one.isOfEntailment() && isAccepted(one))
            && explanations.justifications(axiom).sets().stream().anyMatch(set -> isEnoughForKonclude(set, axiom));
    }

    private static boolean isEnoughForKonclude(Set<OWLAxiom> justification, OWLAxiom axiom) {
        OWLOntology alone = Ontologies.of(justification);
        return isYes(() -> Konclude.entailed(alone, List.of(axiom)))
            || isYes(() -> Konclude.entailedInNormalForm(alone, List.of(axiom)));
    }

    /** Whether an answer on one axiom is that it follows, as everything does from an inconsistent ontology. */
    private static boolean isYes(Supplier<List<Boolean>> answer) {
        try {
            List<Boolean> entailed = answer.get();
            return entailed == null || entailed.get(0);
        } catch (Konclude.NoAnswer crash) {
            return false;
        }
    }

    /** Whether {@code second/check}, which shares nothing with the program, accepts a certificate. */
    static boolean isAccepted(Certificate certificate) {
        try {
            Path folder = Files.createTempDirectory("certificate");
            Path document = Files.writeString(folder.resolve("document.ofn"), certificate.document());
            Path text = Files.writeString(folder.resolve("certificate.txt"), certificate.text());
            try {
                List<String> words = List.of(document.toString(), text.toString(), certificate.statement());
                ProgramAnswer answer = new ProgramCall(List.of(System.getProperty("jezundwa.second")), words,
                    new byte[0]).run(Called.LONGEST);
                return answer.firstLine()
                    .equals(certificate.isOfEntailment() ? "accepted entailed" : "accepted not entailed");
            } finally {
                Files.delete(document);
                Files.delete(text);
                Files.delete(folder);
            }
        } catch (IOException fault) {
            throw new IllegalStateException(fault);
        }
    }
}
