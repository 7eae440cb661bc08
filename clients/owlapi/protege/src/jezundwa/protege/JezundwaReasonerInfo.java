package jezundwa.protege;

import jezundwa.owlapi.JezundwaReasonerFactory;
import org.protege.editor.owl.model.inference.AbstractProtegeOWLReasonerInfo;
import org.semanticweb.owlapi.reasoner.BufferingMode;
import org.semanticweb.owlapi.reasoner.OWLReasonerFactory;

/** The reasoner in Protégé's menu. */
public class JezundwaReasonerInfo extends AbstractProtegeOWLReasonerInfo {
    @Override
    public BufferingMode getRecommendedBuffering() {
        return BufferingMode.BUFFERING;
    }

    @Override
    public OWLReasonerFactory getReasonerFactory() {
        return new JezundwaReasonerFactory();
    }

    @Override
    public void initialise() {
        // The program is looked for when a reasoner is made.
    }

    @Override
    public void dispose() {
        // A reasoner is disposed of by whoever made it.
    }
}
