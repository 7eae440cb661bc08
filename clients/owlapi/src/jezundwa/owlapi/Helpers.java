package jezundwa.owlapi;

import org.semanticweb.owlapi.model.IRI;
import org.semanticweb.owlapi.model.OWLClass;
import org.semanticweb.owlapi.model.OWLDataFactory;
import org.semanticweb.owlapi.model.OWLEntity;
import org.semanticweb.owlapi.model.OWLNamedIndividual;
import org.semanticweb.owlapi.model.OWLObjectProperty;

/** Names of which no ontology says anything: what questions and rewritten axioms need besides. */
final class Helpers {
    static final String PREFIX = "urn:jezundwa:helper#";

    private final OWLDataFactory factory;
    private final String kind;

    /** Helpers of two kinds never have one name. */
    Helpers(OWLDataFactory factory, String kind) {
        this.factory = factory;
        this.kind = kind;
    }

    OWLClass type(int number) {
        return factory.getOWLClass(IRI.create(PREFIX + kind + "-class-" + number));
    }

    OWLNamedIndividual individual(int number) {
        return factory.getOWLNamedIndividual(IRI.create(PREFIX + kind + "-individual-" + number));
    }

    OWLObjectProperty role() {
        return factory.getOWLObjectProperty(IRI.create(PREFIX + kind + "-role"));
    }

    static boolean isHelper(OWLEntity entity) {
        return entity.getIRI().toString().startsWith(PREFIX);
    }
}
