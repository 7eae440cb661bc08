package jezundwa.owlapi;

import java.util.ArrayList;
import java.util.List;
import java.util.Map;
import org.semanticweb.owlapi.model.OWLClass;
import org.semanticweb.owlapi.model.OWLAxiom;
import org.semanticweb.owlapi.model.OWLClassAssertionAxiom;
import org.semanticweb.owlapi.model.OWLClassExpression;
import org.semanticweb.owlapi.model.OWLDataFactory;
import org.semanticweb.owlapi.model.OWLSubClassOfAxiom;

/** Asks the program about one document, and reads its faults. */
final class QuestionAsker {
    /** The system refuses a word of a command line of 128 KiB; a longer question is written into the document. */
    private static final int LONGEST_WORD = 100_000;
    /** A session keeps within the program's limits where it has not more questions than this. */
    private static final int MOST_QUESTIONS = 500;
    private static final Map<String, ProgramStatus> FAULTS = Map.of("bad text", ProgramStatus.BAD_TEXT, "outside",
        ProgramStatus.OUTSIDE, "limit", ProgramStatus.LIMIT);

    private final OntologyDocument document;
    private final JezundwaConfiguration configuration;
    private final CallRunner runner;
    private final OWLDataFactory factory;
    private final Helpers helpers;

    QuestionAsker(OntologyDocument document, JezundwaConfiguration configuration, CallRunner runner,
            OWLDataFactory factory) {
        this.document = document;
        this.configuration = configuration;
        this.runner = runner;
        this.factory = factory;
        this.helpers = new Helpers(factory, "word");
    }

    /** A job on the whole document. */
    ProgramAnswer onDocument(String job, String task) {
        return whole(call(document.text().text(), task, job));
    }

    /**
     * A job on the document without assertions. Where the ontology is consistent, the same inclusions between classes
     * follow as with them: the language has no nominals, so a model of the ontology beside a model in which an
     * inclusion fails is one model of both.
     */
    ProgramAnswer onTerms(String job, String task) {
        return whole(call(document.terms().text(), task, job));
    }

    /** A job on one question: {@code entails}, {@code explain}, {@code repair} or {@code evidence}. */
    ProgramAnswer onQuestion(String job, Question question) {
        Question written = shortened(question);
        return call(document.text().with(document.texts(written.assumptions())), job, job,
            document.text(written.statement()));
    }

    /** The named individuals of a class expression, by the program's names. */
    ProgramAnswer instances(OWLClassExpression type) {
        List<OWLAxiom> definitions = new ArrayList<>();
        OWLClassExpression written = above(type, helpers.type(0), definitions);
        return whole(call(document.text().with(document.texts(definitions)), "Finding instances", "instances",
            document.text(written)));
    }

    /** The answer of {@code sat}. */
    ProgramAnswer satisfiable(OWLClassExpression type) {
        List<OWLAxiom> definitions = new ArrayList<>();
        OWLClassExpression written = below(type, helpers.type(0), definitions);
        return whole(call(document.text().with(document.texts(definitions)), "Testing", "sat",
            document.text(written)));
    }

    /** Whether each question follows. Questions without individuals, on a consistent ontology, leave assertions out. */
    List<Boolean> follow(List<Question> questions, boolean isKnownConsistent) {
        List<Boolean> answers = new ArrayList<>();
        for (int from = 0; from < questions.size(); from += MOST_QUESTIONS) {
            List<Question> part = questions.subList(from, Math.min(from + MOST_QUESTIONS, questions.size()));
            boolean needsAssertions = !isKnownConsistent || part.stream().anyMatch(Question::namesIndividual);
            answers.addAll(session(part, needsAssertions ? document.text() : document.terms()));
        }
        return answers;
    }

    /** Throws where a question cannot be written in the language of the program. */
    void requireInLanguage(Question question) {
        document.texts(question.assumptions());
        document.text(question.statement());
    }

    private List<Boolean> session(List<Question> questions, DocumentText text) {
        StringBuilder script = new StringBuilder();
        int lastAxiom = text.axiomCount();
        for (Question question : questions) {
            List<String> assumptions = document.texts(question.assumptions());
            assumptions.forEach(axiom -> script.append("add ").append(axiom).append('\n'));
            script.append("ask ").append(document.text(question.statement())).append('\n');
            for (int count = 0; count < assumptions.size(); count++) {
                script.append("remove ").append(++lastAxiom).append('\n');
            }
        }
        ProgramAnswer answer = call(text.text() + script, "Testing", "session");
        List<Boolean> follows = new ArrayList<>();
        for (String line : answer.lines()) {
            if (line.startsWith("yes") || line.equals("no")) {
                follows.add(line.startsWith("yes"));
            } else if (!line.startsWith("axiom ") && !line.startsWith("removed ")) {
                throw fault(line, questions.get(follows.size()), answer.lines());
            }
        }
        return follows;
    }

    private RuntimeException fault(String line, Question question, List<String> known) {
        if (line.equals("undecided")) {
            return new BudgetSpentException(document.names().decode(document.text(question.statement())),
                known.subList(0, known.size() - 1));
        }
        String message = line + ": " + question.statement();
        return FAULTS.entrySet().stream().filter(fault -> line.startsWith(fault.getKey())).findFirst()
            .map(fault -> fault.getValue().exception(message)).orElse(new ProgramException.Crashed(message));
    }

    private ProgramAnswer whole(ProgramAnswer answer) {
        if (!answer.isWhole()) {
            throw new BudgetSpentException("the ontology", answer.lines());
        }
        return answer;
    }

    private ProgramAnswer call(String input, String task, String... words) {
        List<String> all = new ArrayList<>(List.of(words));
        all.add("budget");
        all.add(Long.toString(configuration.budget()));
        ProgramAnswer answer = runner.run(
            new ProgramCall(configuration.command(), all, OntologyDocument.bytes(input)), task);
        if (!answer.status().isAnswer()) {
            String told = document.explained(answer.firstLine())
                + (answer.faults().isEmpty() ? "" : "\n" + answer.faults());
            throw answer.status().exception(told.isBlank() ? "the program ended without an answer" : told);
        }
        return answer;
    }

    /** The same question with a word that is short enough: a long class is a helper's definition in the document. */
    private Question shortened(Question question) {
        if (document.text(question.statement()).length() <= LONGEST_WORD) {
            return question;
        }
        List<OWLAxiom> all = new ArrayList<>(question.assumptions());
        OWLClass left = helpers.type(0);
        OWLClass right = helpers.type(1);
        if (question.statement() instanceof OWLSubClassOfAxiom inclusion) {
            return new Question(all, factory.getOWLSubClassOfAxiom(below(inclusion.getSubClass(), left, all),
                above(inclusion.getSuperClass(), right, all)));
        }
        OWLClassAssertionAxiom assertion = (OWLClassAssertionAxiom) question.statement();
        return new Question(all, factory.getOWLClassAssertionAxiom(
            above(assertion.getClassExpression(), right, all), assertion.getIndividual()));
    }

    /** A class, or a helper that may be any part of it; let it be the class, and nothing is lost. */
    private OWLClassExpression below(OWLClassExpression type, OWLClass helper, List<OWLAxiom> definitions) {
        if (document.text(type).length() <= LONGEST_WORD / 2) {
            return type;
        }
        definitions.add(factory.getOWLSubClassOfAxiom(helper, type));
        return helper;
    }

    /** A class, or a helper that has all of it; let it be the class, and nothing is lost. */
    private OWLClassExpression above(OWLClassExpression type, OWLClass helper, List<OWLAxiom> definitions) {
        if (document.text(type).length() <= LONGEST_WORD / 2) {
            return type;
        }
        definitions.add(factory.getOWLSubClassOfAxiom(type, helper));
        return helper;
    }
}
