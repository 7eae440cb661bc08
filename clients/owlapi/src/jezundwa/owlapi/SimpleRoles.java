package jezundwa.owlapi;

import java.util.ArrayDeque;
import java.util.ArrayList;
import java.util.Collection;
import java.util.Deque;
import java.util.HashMap;
import java.util.HashSet;
import java.util.List;
import java.util.Map;
import java.util.Set;
import org.semanticweb.owlapi.model.OWLAxiom;
import org.semanticweb.owlapi.model.OWLEquivalentObjectPropertiesAxiom;
import org.semanticweb.owlapi.model.OWLObjectProperty;
import org.semanticweb.owlapi.model.OWLObjectPropertyExpression;
import org.semanticweb.owlapi.model.OWLSubObjectPropertyOfAxiom;
import org.semanticweb.owlapi.model.OWLTransitiveObjectPropertyAxiom;

/** Which roles are simple: have no transitive role below them, so that they may be counted. */
final class SimpleRoles {
    private final Map<OWLObjectProperty, List<OWLObjectProperty>> above = new HashMap<>();
    private final Set<OWLObjectProperty> notSimple = new HashSet<>();

    /** By the inclusions, equivalences and transitive roles among axioms that are in the language. */
    SimpleRoles(Collection<? extends OWLAxiom> axioms) {
        Deque<OWLObjectProperty> found = new ArrayDeque<>();
        for (OWLAxiom axiom : axioms) {
            if (axiom instanceof OWLSubObjectPropertyOfAxiom inclusion) {
                put(inclusion.getSubProperty(), inclusion.getSuperProperty());
            } else if (axiom instanceof OWLEquivalentObjectPropertiesAxiom equivalence) {
                putRing(new ArrayList<>(equivalence.getProperties()));
            } else if (axiom instanceof OWLTransitiveObjectPropertyAxiom transitive) {
                found.add(transitive.getProperty().getNamedProperty());
            }
        }
        while (!found.isEmpty()) {
            OWLObjectProperty role = found.pop();
            if (notSimple.add(role)) {
                found.addAll(above.getOrDefault(role, List.of()));
            }
        }
    }

    private void putRing(List<OWLObjectPropertyExpression> roles) {
        for (int at = 0; at < roles.size(); at++) {
            put(roles.get(at), roles.get((at + 1) % roles.size()));
        }
    }

    private void put(OWLObjectPropertyExpression below, OWLObjectPropertyExpression over) {
        if (!below.isAnonymous() && !over.isAnonymous()) {
            above.computeIfAbsent(below.getNamedProperty(), unknown -> new ArrayList<>()).add(over.getNamedProperty());
        }
    }

    boolean isSimple(OWLObjectPropertyExpression role) {
        return !notSimple.contains(role.getNamedProperty());
    }
}
