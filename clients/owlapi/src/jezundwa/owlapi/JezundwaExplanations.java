package jezundwa.owlapi;

import com.clarkparsia.owlapi.explanation.ExplanationGenerator;
import java.util.ArrayList;
import java.util.Comparator;
import java.util.LinkedHashSet;
import java.util.List;
import java.util.Objects;
import java.util.Optional;
import java.util.Set;
import java.util.stream.Collectors;
import java.util.stream.Stream;
import org.semanticweb.owlapi.model.OWLAxiom;
import org.semanticweb.owlapi.model.OWLClassExpression;
import org.semanticweb.owlapi.model.OWLDataFactory;
import org.semanticweb.owlapi.model.OWLOntology;

/**
 * All justifications and all repairs of an axiom, certificates, and worlds. It needs no classifier, so it can stand
 * beside another one as an explanation service alone. An inconsistent ontology is explained too: ask about
 * {@code SubClassOf(owl:Thing owl:Nothing)}.
 */
public final class JezundwaExplanations implements ExplanationGenerator {
    private final JezundwaReasoner reasoner;
    private final OWLDataFactory factory;

    /** Explains an ontology as it is whenever it is asked. */
    public JezundwaExplanations(OWLOntology ontology, JezundwaConfiguration configuration) {
        this(new JezundwaReasonerFactory().createNonBufferingReasoner(ontology, configuration));
    }

    /** Explains what a reasoner says: of the ontology as it was at the reasoner's last flush, where it buffers. */
    public JezundwaExplanations(JezundwaReasoner reasoner) {
        this.reasoner = reasoner;
        this.factory = reasoner.getRootOntology().getOWLOntologyManager().getOWLDataFactory();
    }

    /** The smallest sets of axioms from which an axiom follows. */
    public AxiomSets justifications(OWLAxiom axiom) {
        return reasoner.operation(snapshot -> {
            boolean isWhole = true;
            List<Set<OWLAxiom>> together = List.of(Set.of());
            for (Question question : JezundwaReasoner.questions(snapshot, axiom)) {
                Answer answer = ask(snapshot, "explain", question);
                isWhole &= answer.isWhole();
                together = smallest(unions(together, answer.sets()));
            }
            return new AxiomSets(together, isWhole, snapshot.document().coverage());
        });
    }

    /** The smallest sets of axioms without which an axiom does not follow; none where it follows from nothing. */
    public AxiomSets repairs(OWLAxiom axiom) {
        return reasoner.operation(snapshot -> {
            boolean isWhole = true;
            List<Set<OWLAxiom>> any = new ArrayList<>();
            for (Question question : JezundwaReasoner.questions(snapshot, axiom)) {
                Answer answer = ask(snapshot, "repair", question);
                isWhole &= answer.isWhole();
                any.addAll(answer.sets());
            }
            return new AxiomSets(smallest(any.stream()), isWhole, snapshot.document().coverage());
        });
    }

    /**
     * Certificates of an axiom: one of each question that it comes to. Where it does not follow, the first question
     * that fails has the last one, which shows that.
     */
    public List<Certificate> certificates(OWLAxiom axiom) {
        return reasoner.operation(snapshot -> {
            List<Certificate> certificates = new ArrayList<>();
            for (Question question : JezundwaReasoner.questions(snapshot, axiom)) {
                Certificate certificate = certificate(snapshot, question);
                certificates.add(certificate);
                if (!certificate.isOfEntailment()) {
                    break;
                }
            }
            return certificates;
        });
    }

    private static Certificate certificate(Snapshot snapshot, Question question) {
        OntologyDocument document = snapshot.document();
        ProgramAnswer answer = whole(snapshot.asker().onQuestion("entails", question), question);
        Names names = document.names();
        return new Certificate(names.decode(document.text(question.statement())),
            names.decode(document.text().with(document.texts(question.assumptions()))),
            names.decode(String.join("\n", answer.lines()) + "\n"));
    }

    /** A world in which the ontology holds and an axiom does not; none where the axiom follows. */
    public Optional<World> counterexample(OWLAxiom axiom) {
        return reasoner.operation(snapshot -> {
            for (Question question : JezundwaReasoner.questions(snapshot, axiom)) {
                ProgramAnswer answer = whole(snapshot.asker().onQuestion("entails", question), question);
                if (answer.firstLine().equals("not entailed")) {
                    return Optional.of(World.read(answer.lines(), snapshot.document().names()));
                }
            }
            return Optional.empty();
        });
    }

    /** A world with a member of a class; none where there can be no such member. */
    public Optional<World> example(OWLClassExpression type) {
        return reasoner.operation(snapshot -> {
            ProgramAnswer answer = snapshot.asker().satisfiable(type);
            return answer.firstLine().equals("satisfiable")
                ? Optional.of(World.read(answer.lines(), snapshot.document().names())) : Optional.empty();
        });
    }

    /** What of the ontology the answers rest on. */
    public Coverage coverage() {
        return reasoner.coverage();
    }

    public void interrupt() {
        reasoner.interrupt();
    }

    /** Ends the listening to the ontology's changes. */
    public void dispose() {
        reasoner.dispose();
    }

    @Override
    public Set<OWLAxiom> getExplanation(OWLClassExpression unsatisfiable) {
        return known(unsatisfiable).sets().stream().findFirst().orElse(Set.of());
    }

    @Override
    public Set<Set<OWLAxiom>> getExplanations(OWLClassExpression unsatisfiable) {
        return getExplanations(unsatisfiable, Integer.MAX_VALUE);
    }

    @Override
    public Set<Set<OWLAxiom>> getExplanations(OWLClassExpression unsatisfiable, int most) {
        AxiomSets found = known(unsatisfiable);
        if (!found.isWhole() && found.sets().size() < most) {
            throw new BudgetSpentException("why " + unsatisfiable + " is contradictory",
                found.sets().stream().map(Set::toString).toList());
        }
        return found.sets().stream().limit(most).collect(Collectors.toCollection(LinkedHashSet::new));
    }

    private AxiomSets known(OWLClassExpression unsatisfiable) {
        return justifications(factory.getOWLSubClassOfAxiom(unsatisfiable, factory.getOWLNothing()));
    }

    private static ProgramAnswer whole(ProgramAnswer answer, Question question) {
        if (!answer.isWhole()) {
            throw new BudgetSpentException(question.statement().toString(), answer.lines());
        }
        return answer;
    }

    /** The sets of one question, of axioms of the ontology. */
    private record Answer(List<Set<OWLAxiom>> sets, boolean isWhole) {}

    private static Answer ask(Snapshot snapshot, String job, Question question) {
        ProgramAnswer answer = snapshot.asker().onQuestion(job, question);
        String[] heading = answer.firstLine().split(" ");
        int count = Integer.parseInt(heading[heading.length - 1]);
        boolean isOfRepairs = job.equals("repair");
        Stream<Set<OWLAxiom>> sets = answer.lines().subList(1, 1 + count).stream()
            .map(line -> axioms(snapshot.document(), line, isOfRepairs)).filter(Objects::nonNull);
        return new Answer(smallest(sets), answer.isWhole());
    }

    /**
     * The axioms of a line of numbers. What a question assumes is no axiom of the ontology: a justification needs no
     * mention of it, and a set that removes it is no repair.
     */
    private static Set<OWLAxiom> axioms(OntologyDocument document, String line, boolean isOfRepairs) {
        Set<OWLAxiom> axioms = new LinkedHashSet<>();
        if (line.equals("empty")) {
            return axioms;
        }
        for (String number : line.split(" ")) {
            OWLAxiom axiom = document.axiomOf(Integer.parseInt(number));
            if (axiom != null) {
                axioms.add(axiom);
            } else if (isOfRepairs) {
                return null;
            }
        }
        return axioms;
    }

    /** A justification of several statements has one of each in it. */
    private static Stream<Set<OWLAxiom>> unions(List<Set<OWLAxiom>> some, List<Set<OWLAxiom>> others) {
        return some.stream().flatMap(one -> others.stream().map(other -> {
            Set<OWLAxiom> union = new LinkedHashSet<>(one);
            union.addAll(other);
            return union;
        }));
    }

    /** Those sets that contain no other one: several numbers may be of one axiom, so that some are not smallest. */
    private static List<Set<OWLAxiom>> smallest(Stream<Set<OWLAxiom>> sets) {
        List<Set<OWLAxiom>> kept = new ArrayList<>();
        sets.distinct().sorted(Comparator.comparingInt(Set::size)).forEach(set -> {
            if (kept.stream().noneMatch(set::containsAll)) {
                kept.add(set);
            }
        });
        return kept;
    }
}
