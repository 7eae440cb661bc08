package org.protege.editor.owl.model.inference;

import org.semanticweb.owlapi.reasoner.BufferingMode;
import org.semanticweb.owlapi.reasoner.OWLReasonerFactory;

/** A stand-in for Protégé's class, with what a plug-in has to give; it is not packaged. */
public abstract class AbstractProtegeOWLReasonerInfo {
    public abstract BufferingMode getRecommendedBuffering();

    public abstract OWLReasonerFactory getReasonerFactory();

    public abstract void initialise();

    public abstract void dispose();
}
