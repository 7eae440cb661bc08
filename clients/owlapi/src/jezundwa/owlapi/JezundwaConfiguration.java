package jezundwa.owlapi;

import java.util.List;
import org.semanticweb.owlapi.reasoner.FreshEntityPolicy;
import org.semanticweb.owlapi.reasoner.IndividualNodeSetPolicy;
import org.semanticweb.owlapi.reasoner.NullReasonerProgressMonitor;
import org.semanticweb.owlapi.reasoner.OWLReasonerConfiguration;
import org.semanticweb.owlapi.reasoner.ReasonerProgressMonitor;
import org.semanticweb.owlapi.reasoner.SimpleConfiguration;

/**
 * How the program is found and called. An object never changes; each method {@code with..} answers another one.
 *
 * <p>Where nothing else is said, the system properties {@code jezundwa.program}, {@code jezundwa.outside} and
 * {@code jezundwa.budget} are read, then the environment variable {@code JEZUNDWA_PROGRAM}, and then the program is
 * looked for on the PATH (see {@link ProgramFinder}).
 */
public final class JezundwaConfiguration extends SimpleConfiguration {
    /** The greatest number of steps that the program takes as a budget. */
    public static final long GREATEST_BUDGET = 4_294_967_295L;
    private static final long serialVersionUID = 1L;

    private final String program;
    private final OutsidePolicy outside;
    private final long budget;

    /** The standard: no limit of time, the greatest budget, fresh names allowed, what is outside left out. */
    public JezundwaConfiguration() {
        this(new NullReasonerProgressMonitor(), FreshEntityPolicy.ALLOW, Long.MAX_VALUE,
            IndividualNodeSetPolicy.BY_NAME, System.getProperty("jezundwa.program"), propertyOutside(),
            propertyBudget());
    }

    private JezundwaConfiguration(ReasonerProgressMonitor monitor, FreshEntityPolicy freshEntities, long timeOut,
            IndividualNodeSetPolicy individuals, String program, OutsidePolicy outside, long budget) {
        super(monitor, freshEntities, timeOut, individuals);
        this.program = program;
        this.outside = outside;
        this.budget = Math.max(1, Math.min(budget, GREATEST_BUDGET));
    }

    /** The same monitor, time-out and policies as another configuration has. */
    public static JezundwaConfiguration of(OWLReasonerConfiguration other) {
        if (other instanceof JezundwaConfiguration own) {
            return own;
        }
        return new JezundwaConfiguration(other.getProgressMonitor(), other.getFreshEntityPolicy(), other.getTimeOut(),
            other.getIndividualNodeSetPolicy(), System.getProperty("jezundwa.program"), propertyOutside(),
            propertyBudget());
    }

    private static OutsidePolicy propertyOutside() {
        return OutsidePolicy.valueOf(System.getProperty("jezundwa.outside", OutsidePolicy.LEAVE_OUT.name()));
    }

    private static long propertyBudget() {
        return Long.getLong("jezundwa.budget", GREATEST_BUDGET);
    }

    /** The path of the program, of {@code shq}, or the name of one that is on the PATH. */
    public JezundwaConfiguration withProgram(String path) {
        return new JezundwaConfiguration(getProgressMonitor(), getFreshEntityPolicy(), getTimeOut(),
            getIndividualNodeSetPolicy(), path, outside, budget);
    }

    public JezundwaConfiguration withOutside(OutsidePolicy policy) {
        return new JezundwaConfiguration(getProgressMonitor(), getFreshEntityPolicy(), getTimeOut(),
            getIndividualNodeSetPolicy(), program, policy, budget);
    }

    /** How many steps of search each call of the program may make, from 1 to {@link #GREATEST_BUDGET}. */
    public JezundwaConfiguration withBudget(long steps) {
        return new JezundwaConfiguration(getProgressMonitor(), getFreshEntityPolicy(), getTimeOut(),
            getIndividualNodeSetPolicy(), program, outside, steps);
    }

    /** How many milliseconds each call of the program may take. */
    public JezundwaConfiguration withTimeOut(long milliseconds) {
        return new JezundwaConfiguration(getProgressMonitor(), getFreshEntityPolicy(), milliseconds,
            getIndividualNodeSetPolicy(), program, outside, budget);
    }

    public JezundwaConfiguration withMonitor(ReasonerProgressMonitor monitor) {
        return new JezundwaConfiguration(monitor, getFreshEntityPolicy(), getTimeOut(), getIndividualNodeSetPolicy(),
            program, outside, budget);
    }

    public JezundwaConfiguration withFreshEntities(FreshEntityPolicy policy) {
        return new JezundwaConfiguration(getProgressMonitor(), policy, getTimeOut(), getIndividualNodeSetPolicy(),
            program, outside, budget);
    }

    public JezundwaConfiguration withIndividuals(IndividualNodeSetPolicy policy) {
        return new JezundwaConfiguration(getProgressMonitor(), getFreshEntityPolicy(), getTimeOut(), policy, program,
            outside, budget);
    }

    public OutsidePolicy outside() {
        return outside;
    }

    public long budget() {
        return budget;
    }

    /** The command that is called. */
    List<String> command() {
        return List.of(ProgramFinder.program(program).toString());
    }

    /** The command {@code shq}, which translates ontologies. */
    List<String> translator() {
        return List.of(ProgramFinder.translator(program).toString());
    }
}
