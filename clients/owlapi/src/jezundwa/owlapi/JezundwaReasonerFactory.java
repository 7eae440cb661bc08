package jezundwa.owlapi;

import org.semanticweb.owlapi.model.OWLOntology;
import org.semanticweb.owlapi.reasoner.BufferingMode;
import org.semanticweb.owlapi.reasoner.OWLReasonerConfiguration;
import org.semanticweb.owlapi.reasoner.OWLReasonerFactory;

/** Makes reasoners that call the program. */
public final class JezundwaReasonerFactory implements OWLReasonerFactory {
    private final JezundwaConfiguration standard;

    public JezundwaReasonerFactory() {
        this(new JezundwaConfiguration());
    }

    /** A factory whose reasoners have a configuration of their own where none is given with the ontology. */
    public JezundwaReasonerFactory(JezundwaConfiguration standard) {
        this.standard = standard;
    }

    @Override
    public String getReasonerName() {
        return JezundwaReasoner.NAME;
    }

    @Override
    public JezundwaReasoner createReasoner(OWLOntology ontology) {
        return createReasoner(ontology, standard);
    }

    @Override
    public JezundwaReasoner createNonBufferingReasoner(OWLOntology ontology) {
        return createNonBufferingReasoner(ontology, standard);
    }

    @Override
    public JezundwaReasoner createReasoner(OWLOntology ontology, OWLReasonerConfiguration configuration) {
        return new JezundwaReasoner(ontology, BufferingMode.BUFFERING, JezundwaConfiguration.of(configuration));
    }

    @Override
    public JezundwaReasoner createNonBufferingReasoner(OWLOntology ontology, OWLReasonerConfiguration configuration) {
        return new JezundwaReasoner(ontology, BufferingMode.NON_BUFFERING, JezundwaConfiguration.of(configuration));
    }
}
