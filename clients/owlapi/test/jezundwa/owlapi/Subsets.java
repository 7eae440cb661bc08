package jezundwa.owlapi;

import java.util.ArrayList;
import java.util.HashMap;
import java.util.HashSet;
import java.util.List;
import java.util.Map;
import java.util.Set;
import org.semanticweb.owlapi.apibinding.OWLManager;
import org.semanticweb.owlapi.model.IRI;
import org.semanticweb.owlapi.model.OWLAxiom;
import org.semanticweb.owlapi.model.OWLEntity;
import org.semanticweb.owlapi.model.OWLOntologyManager;
import org.semanticweb.owlapi.util.OWLObjectDuplicator;

/** From which subsets of some axioms a statement follows, and the smallest sets out of that. */
final class Subsets {
    private static final OWLOntologyManager MANAGER = OWLManager.createOWLOntologyManager();
    /** In milliseconds. Most cases take one second; some, in which each copy has a choice everywhere, have no end. */
    private static final long LONGEST = 20_000;

    private Subsets() {}

    /**
     * Of each subset, by the number whose bits tell its axioms. One ontology has a copy of each subset with names of
     * its own, so that Konclude tells of all in one run; null where it is inconsistent, or Konclude has no answer.
     */
    static List<Boolean> entailed(List<OWLAxiom> axioms, OWLAxiom statement) {
        Set<OWLAxiom> copies = new HashSet<>();
        List<OWLAxiom> statements = new ArrayList<>();
        for (int subset = 0; subset < 1 << axioms.size(); subset++) {
            for (int at = 0; at < axioms.size(); at++) {
                if ((subset >> at & 1) == 1) {
                    copies.add(copy(axioms.get(at), subset));
                }
            }
            statements.add(copy(statement, subset));
        }
        try {
            return Konclude.entailedWithin(LONGEST, Ontologies.of(copies), statements);
        } catch (Konclude.NoAnswer crash) {
            return null;
        }
    }

    private static OWLAxiom copy(OWLAxiom axiom, int subset) {
        Map<OWLEntity, IRI> names = new HashMap<>();
        for (OWLEntity entity : axiom.getSignature()) {
            if (!entity.isBuiltIn()) {
                names.put(entity, IRI.create(entity.getIRI() + "-" + subset));
            }
        }
        return new OWLObjectDuplicator(names, MANAGER).duplicateObject(axiom);
    }

    /** The subsets from which it follows, and from no smaller one in them. */
    static Set<Set<OWLAxiom>> smallest(List<OWLAxiom> axioms, List<Boolean> entailed) {
        Set<Set<OWLAxiom>> found = new HashSet<>();
        for (int subset = 0; subset < entailed.size(); subset++) {
            boolean isSmallest = entailed.get(subset);
            for (int at = 0; at < axioms.size(); at++) {
                isSmallest &= (subset >> at & 1) == 0 || !entailed.get(subset & ~(1 << at));
            }
            if (isSmallest) {
                found.add(members(axioms, subset));
            }
        }
        return found;
    }

    /** What is outside of the largest subsets from which it does not follow. */
    static Set<Set<OWLAxiom>> repairs(List<OWLAxiom> axioms, List<Boolean> entailed) {
        Map<Integer, Boolean> isEnough = new HashMap<>();
        int all = entailed.size() - 1;
        for (int removed = 0; removed <= all; removed++) {
            isEnough.put(removed, !entailed.get(all & ~removed));
        }
        Set<Set<OWLAxiom>> found = new HashSet<>();
        for (int removed = 0; removed <= all; removed++) {
            boolean isSmallest = isEnough.get(removed);
            for (int at = 0; at < axioms.size(); at++) {
                isSmallest &= (removed >> at & 1) == 0 || !isEnough.get(removed & ~(1 << at));
            }
            if (isSmallest) {
                found.add(members(axioms, removed));
            }
        }
        return found;
    }

    /** The axioms of a subset. */
    static Set<OWLAxiom> members(List<OWLAxiom> axioms, int subset) {
        Set<OWLAxiom> members = new HashSet<>();
        for (int at = 0; at < axioms.size(); at++) {
            if ((subset >> at & 1) == 1) {
                members.add(axioms.get(at));
            }
        }
        return members;
    }
}
