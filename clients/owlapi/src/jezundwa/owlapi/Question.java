package jezundwa.owlapi;

import java.util.List;
import java.util.stream.Stream;
import org.semanticweb.owlapi.model.OWLAxiom;
import org.semanticweb.owlapi.model.OWLEntity;

/**
 * What the program can be asked: whether a statement, one {@code SubClassOf} or {@code ClassAssertion}, follows from
 * the ontology and some assumptions.
 */
record Question(List<OWLAxiom> assumptions, OWLAxiom statement) {
    static Question of(OWLAxiom statement) {
        return new Question(List.of(), statement);
    }

    /** Whether it speaks of an individual of the ontology, so that its assertions may matter. */
    boolean namesIndividual() {
        return Stream.concat(assumptions.stream(), Stream.of(statement))
            .anyMatch(axiom -> !axiom.getAnonymousIndividuals().isEmpty()
                || axiom.getIndividualsInSignature().stream().map(OWLEntity.class::cast)
                    .anyMatch(individual -> !Helpers.isHelper(individual)));
    }
}
