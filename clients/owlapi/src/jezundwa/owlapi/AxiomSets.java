package jezundwa.owlapi;

import java.util.List;
import java.util.Set;
import org.semanticweb.owlapi.model.OWLAxiom;

/**
 * Justifications of a statement, the smallest sets of axioms from which it follows, or its repairs, the smallest sets
 * without which it does not. Sets are in the order of their sizes.
 *
 * @param sets the sets that were found
 * @param isWhole whether these are all; else the budget was spent, there may be more, and a set in which an axiom
 *     stands for several lines of the program's text may not be smallest
 * @param coverage what of the ontology the sets rest on: where it is not the whole, each justification is enough for
 *     the statement, but there may be others, and a repair may not stop it
 */
public record AxiomSets(List<Set<OWLAxiom>> sets, boolean isWhole, Coverage coverage) {}
