package org.protege.editor.owl.ui.explanation;

import org.protege.editor.owl.model.OWLModelManager;
import org.semanticweb.owlapi.model.OWLAxiom;

/** A stand-in for Protégé's class, with what a plug-in has to give and may ask; it is not packaged. */
public abstract class ExplanationService {
    public OWLModelManager getOWLModelManager() {
        return null;
    }

    public abstract void initialise();

    public abstract boolean hasExplanation(OWLAxiom axiom);

    public abstract ExplanationResult explain(OWLAxiom axiom);

    public abstract void dispose();
}
