package org.protege.editor.owl.ui.explanation;

import javax.swing.JPanel;

/** A stand-in for Protégé's class; it is not packaged. */
public abstract class ExplanationResult extends JPanel {
    private static final long serialVersionUID = 1L;

    public abstract void dispose();
}
