package org.protege.editor.owl.model;

import org.semanticweb.owlapi.model.OWLObject;
import org.semanticweb.owlapi.model.OWLOntology;

/** A stand-in for Protégé's interface; it is not packaged. */
public interface OWLModelManager {
    OWLOntology getActiveOntology();

    String getRendering(OWLObject object);
}
