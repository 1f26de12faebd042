// Unverified, like the whole solver. The first process: handles the ends of the other processes,
// and finds the answer.
#include <algorithm>
#include <cmath>
#include <csignal>
#include <cstdio>
#include <cstring>
#include <new>

#include <sys/wait.h>
#include <unistd.h>

#include "run.h"

namespace {

const double ENDING = 10;  // seconds that a filter has for its current line
const double SAVING = 6;   // seconds to save the last round; the front waits a bit longer
const double TRYING = 1;   // seconds at least, once a check has failed
const double MOMENT = 1;   // seconds in which the front ends lrupd

}  // namespace

// Signals are handled here only once there is something to end.
void Run::prepare() {
    Options &options = inputs.options;
    // before other processes of this run keep cores busy
    if (options.engines == 0 && options.solvers.empty()) options.engines = usual_engines();
    options.filters = filters_of(options);
    Folder::make();
    front.start_probe();
    options.engines += int(options.solvers.size()) * options.filters;
    keeping.prepare(absolute(front.lrupd));
    inputs.find();
    keeping.check_outputs(true);
    display.begin();
    if (inputs.has_number()) display.tell("the record is " + quoted(options.record));
    if (!options.check)
        display.tell_more(version() + (engines_have_hints ? ", which gives hints" : ""));
    inputs.read([this](int file) { await_formula(file); });
    if (options.replace) await_acceptance();
    inputs.keep();
    teams.open(inputs.saved.count() + 1);
    teams.open_models();
    rounds.begin();
    loop.begin();
    while (reap(children())) {}  // the probe may have ended before
    for (size_t k = 0; k < inputs.cubes.size() && !options.in_order; k++)
        teams.dealer.queue.push_back(k);
    if (others) others->begin();
    teams.start(!others);
    if (inputs.options.resumed) display.tell(rounds.begin_message());
    for (size_t k = 0; k < teams.size(); k++)
        if (teams.is_solver(k) && k == teams.first_of(k))
            display.tell_more(teams.title(k) + ": " + teams[k].command);
}

// Waits until the formula is read. A signal or the time limit ends the run.
void Run::await_formula(int file) {
    double limit = inputs.deadline();
    std::string why;
    for (bool is_read = false; !is_read && why.empty(); display.show_reading()) {
        pollfd files[] = { front.to_poll(), { file, POLLIN, 0 } };
        poll(files, 2, milliseconds_to(std::min(limit, display.next_reading())));
        is_read = files[1].revents != 0;
        if (files[0].revents != 0) front.read_on(nullptr);
        if (now() >= limit && !is_read) why = "time is up, but the formula hasn't been read yet";
        if (!front.stopped.empty()) why = front.stopped;
    }
    display.end_reading();
    if (!why.empty()) end_early(why);
}

// Waits until lrupd has read the formula, too, which it may refuse: what is replaced can't be had
// back. Also refuses proofs and solvers that can't be used.
void Run::await_acceptance() {
    Child &probe = front.probe.child;
    front.await_refusal(inputs.deadline());
    check_probe();
    if (!front.stopped.empty()) end_early(front.stopped);
    if (probe.running) end_early("time is up, but lrupd hasn't read the formula yet");
    if (!probe.ended_with(UNKNOWN_STATUS)) end_early("lrupd " + probe.end());
    teams.check_solvers();
}

// Ends the run before anything is started.
void Run::end_early(const std::string &why) {
    display.tell(why);
    display.report_end(line_of_answer());
    Folder::remove();
    _exit(0);
}

// Events.

double Run::next_timeout() const {
    double time = std::min({ display.next_show(), checker.next_opening(),
                             asked.empty() ? inputs.deadline() : saving });
    if (others) time = std::min(time, others->next_step());
    if (phase == SOLVING && rounds.state == Rounds::OPEN)
        time = std::min({ time, teams.next_start(), rounds.next_saving() });
    if (phase == ENDING_STREAMS) time = std::min(time, ending);
    return time;
}

std::vector<Child *> Run::children() {
    std::vector<Child *> list = teams.children();
    list.push_back(&front.probe.child);
    for (Child *child : rounds.children()) list.push_back(child);
    if (others) list.push_back(others->carrier);
    return list;
}

// Also wakes up if the front says something, or a full pipe has room.
void Run::wait() {
    std::vector<pollfd> files = { front.to_poll() };
    for (const pollfd &file : checker.full_pipes()) files.push_back(file);
    for (const pollfd &file : others ? others->files() : std::vector<pollfd>())
        files.push_back(file);
    loop.wait(teams.shared->events, files, next_timeout(), children());
    if (files[0].revents != 0) front.read_on(&checker);
    checker.open_pipes();
}

std::string Run::reason_to_end() {
    std::string why = others ? others->step() : "";
    if (!why.empty()) return why;
    if (loop.ended_by) return std::string("ended by a signal: ") + strsignal(loop.ended_by);
    if (front.probe.child.ended() && WIFSIGNALED(front.probe.child.status))
        return "lrupd " + front.probe.child.end();
    if (asked.empty()) asked = reason_to_stop();
    return asked.empty() || saves_first() ? "" : asked;
}

std::string Run::reason_to_stop() const {
    if (!front.stopped.empty()) return front.stopped;
    return now() >= inputs.deadline() ? "time is up" : "";
}

// Before it ends, a run spends at most a few seconds on saving what it has found since its last
// round, or on the rest of its proof's check. Returns whether it is still doing so.
bool Run::saves_first() {
    if (saving == 0) {
        saving = now() + SAVING;
        rounds.save_last();
    }
    if (!inputs.options.may_be_resumed() || now() >= saving || phase == BEGINNING_AGAIN)
        return false;
    return phase == SOLVING ? rounds.is_saving() : !rounds.is_behind();
}

void Run::handle_events() {
    Phase phase_before = phase;
    Rounds::State state_before = rounds.state;
    std::string why = reason_to_end();
    if (!why.empty()) return finish(UNKNOWN_ANSWER, why);
    check_probe();
    if (phase == BEGINNING_AGAIN) end_filters();
    if (phase == SOLVING) check_teams();
    if (phase == SOLVING && rounds.state == Rounds::OPEN) schedule_engines();
    if (phase == SOLVING) check_lrupd();
    if (phase == ENDING_STREAMS) end_streams();
    if (phase != DONE && phase != BEGINNING_AGAIN) why = rounds.feed(phase == CHECKING);
    if (!why.empty()) finish(UNKNOWN_ANSWER, why);
    if (phase == CHECKING && checker.child.ended()) verdict();
    loop.polls_only = phase != DONE && (phase != phase_before || rounds.state != state_before);
}

void Run::check_probe() {
    if (!front.has_refused()) return;
    const Checker &probe = front.probe;
    bool is_of_assumptions =
        inputs.options.assume && probe.last_line().find("assumptions") != std::string::npos;
    if (probe.last_line().empty())
        inputs.refuse_formula("lrupd, which reads the formula, " + probe.child.end());
    if (is_of_assumptions)
        inputs.refuse_formula(title(inputs.options.assume) + inputs.fault_of_assumptions());
    inputs.refuse_formula(title(inputs.options.formula));
}

void Run::schedule_engines() {
    bool is_first = teams.dealer.dealt == 0;
    teams.schedule();
    if (is_first && teams.dealer.dealt > 0) display.tell_more("engines take cubes");
    display.tell_cubes(false);
}

void Run::check_teams() {
    bool any_left = false, any_has_begun = false;
    teams.keep_last();
    for (size_t k = 0; k < teams.size() && phase == SOLVING; k++) {
        check_team(k);
        any_left |= !teams.is_lost(k);
        any_has_begun |= !teams[teams.first_of(k)].idle;
    }
    if (phase != SOLVING || any_left) return;
    std::string contradicting = inputs.contradiction();
    const char *none = inputs.options.check ? "no proof is left" : "no engine is left";
    finish(UNKNOWN_ANSWER, contradicting.empty() ? none : contradicting);
    if (!any_has_begun)
        unstarted =
            inputs.options.check ? teams.why_lost(0) : "nothing could run: " + teams[0].cause;
}

// The proof is complete once the filter has written its last line, whatever the engine says. If
// filters share the proof, the one decides that stopped at its first step.
void Run::check_team(size_t k) {
    Team &team = teams[k];
    if (LOAD(teams.engine_status(k).unwritten) && team.filter.ended())
        refuse("cannot write " + teams.stream_path(k, rounds.number) + ": " +
               teams.engine_status(k).cause);
    if (k != teams.first_of(k)) return;
    const size_t decider = teams.decider(k);
    const Child &filter = teams[decider].filter;
    EngineStatus &facts = teams.engine_status(decider);
    if (LOAD(facts.refuted)) {
        bool others_go_on =
            teams.has_windows() || (inputs.options.check && rounds.state == Rounds::OPEN);
        if (others_go_on && teams.is_any_at_work()) return;
        if (teams.answered == 0) teams.answered = now();
        check_ends();
        ending = now() + ENDING;
        phase = ENDING_STREAMS;
        if (!inputs.options.check) display.tell_more(teams.title(k) + " has the proof");
        return;
    }
    int said = LOAD(teams.engine_status(k).answer);
    if (said == SATISFIABLE && !team.wrong) check_assignment(k);
    if (filter.ended()) STORE(facts.gone, 1);
    if (phase != SOLVING || team.told || said == SATISFIABLE) return;
    bool both_ended = team.engine.ended() && filter.ended_with(0);
    if (check_several(k) || check_copier(k) || check_end(k) || !filter.ended() ||
        !(both_ended || !filter.ended_with(0)))
        return;
    if (facts.proof_ended && team.engine.running) return;  // the engine ends soon, too
    std::string end = facts.cause[0] ? std::string("stopped: ") + facts.cause : filter.end();
    team.idle = inputs.options.check && facts.cause[0] && !facts.has_steps;  // it isn't a proof
    tell_lost(k, inputs.options.check && facts.cause[0] ? facts.cause
                                                        : end_before(k) + "its filter " + end);
    team.engine.signal(SIGKILL);
    teams.end_filters(k);
}

// Whether the proof is begun again, since its filters can't check it together, or one was killed.
bool Run::check_several(size_t k) {
    const size_t decider = teams.decider(k);
    const Child &filter = teams[decider].filter;
    bool has_died = teams.has_died(k),
         needs_one = filter.ended() && teams.engine_status(decider).needs_one;
    if (!(has_died || needs_one) || teams.is_copied_no_more(k)) return false;
    return begin_again(has_died ? "a filter " + filter.end() + ", so " : "");
}

// Whether what copies a solver's proof has ended too early. The solver would wait for it.
bool Run::check_copier(size_t k) {
    if (inputs.options.check || !teams.is_copied_no_more(k)) return false;
    tell_lost(k, "the process that copies its proof " + teams[k].copier.end());
    teams[k].engine.signal(SIGKILL);
    teams.end_filters(k);
    return true;
}

// How an engine has ended, with the last line of a solver's standard error.
std::string Run::end_of(size_t k) const {
    const Team &team = teams[k];
    const char *words = teams.engine_status(k).stderr_end;
    if (!teams.is_solver(k)) return "the engine " + team.engine.end();
    if (!words[0] && team.engine.ended_with(127)) words = "command not found";
    return "the solver " + team.engine.end() + (words[0] ? ": " : "") + words;
}

static bool is_usual(const Child &engine) {
    bool has_answered = engine.ended_with(SATISFIABLE) || engine.ended_with(UNSATISFIABLE);
    return has_answered || engine.ended_with(0);
}

// How the engine ended, if that explains what its filter found.
std::string Run::end_before(size_t k) const {
    bool proof_ended = teams.engine_status(teams.decider(k)).proof_ended;
    return proof_ended && !is_usual(teams[k].engine) ? end_of(k) + "; " : "";
}

// Whether an engine has ended without an answer, and not because of its filter.
bool Run::check_end(size_t k) {
    Team &team = teams[k];
    const EngineStatus &facts = teams.engine_status(k);
    const size_t decider = teams.decider(k);
    bool has_cause = teams.engine_status(decider).cause[0];
    bool has_ended =
        team.engine.ended() && (teams[decider].filter.ended_with(0) || !team.engine.ended_with(0));
    bool is_unread = inputs.options.check && teams.is_copied_no_more(k),
         has_no_filter = inputs.options.check && team.engine.ended_with(0);
    if (LOAD(facts.answer) != 0 || (has_cause && !is_unread) || !has_ended || has_no_filter)
        return false;
    bool lacks_assignment = LOAD(facts.lacks_assignment);
    team.idle = !lacks_assignment && LOAD(facts.lines) == 0 && !is_usual(team.engine);
    static const char no_values[] = "it says 'satisfiable', but gives no assignment in lines v";
    std::string end = inputs.options.check ? "it can't be read" : end_of(k);
    if (inputs.options.check)
        end += ": " + (facts.stderr_end[0] ? facts.stderr_end : "its process " + team.engine.end());
    tell_lost(k, lacks_assignment ? no_values : end);
    // The engine's process, which was killed, hasn't ended what the solver started.
    if (LOAD(facts.group)) kill(-LOAD(facts.group), SIGKILL);
    return true;
}

// Looks at all engines once one has the answer, before they are killed. A filter that has the proof
// ends before its engine.
void Run::check_ends() {
    for (size_t k = 0; k < teams.size(); k++)
        if (k == teams.first_of(k) && !teams[k].told &&
            !LOAD(teams.engine_status(teams.decider(k)).refuted))
            check_end(k);
}

void Run::tell_lost(size_t k, const std::string &why) {
    teams[k].told = true;
    teams[k].cause = why;
    if (display.tells_at_once()) display.tell(teams.why_lost(k));
}

// The answer has to wait until lrupd has read the formula, which it may refuse.
void Run::check_assignment(size_t k) {
    if (!front.probe.child.ended()) return;
    const signed char *values = teams[k].model;
    if (inputs.is_model(values)) {
        model.assign(values, values + inputs.formula.variables);
        display.tell_more(teams.title(k) + " has an assignment");
        check_ends();
        return finish(SATISFIABLE, "");
    }
    teams[k].wrong = true;
    tell_lost(k, "its assignment doesn't satisfy the formula");
}

void Run::check_lrupd() {
    bool is_proved = checker.child.ended_with(0) || checker.child.ended_with(8);
    if (is_proved || (checker.child.ended() && rounds.state == Rounds::SAVING)) return verdict();
    if (checker.child.ended()) return finish(UNKNOWN_ANSWER, end_of_checker());
    std::string why = rounds.advance();
    if (!why.empty() && !begin_again(why + ", so ")) finish(UNKNOWN_ANSWER, why);
}

// Begins the only proof again, with one filter. False if the proof can't be read again.
bool Run::begin_again(const std::string &why) {
    if (!teams.can_begin_again() || checker.child.ended()) return false;
    display.tell_more(teams.name_of_proof(0) + ": " + why +
                      "one filter checks it, from its beginning");
    if (checker.child.pid) front.say("over");
    phase = BEGINNING_AGAIN;
    return true;
}

// Ends all that checks the proof, but not what writes it. Then everything is as if one filter had
// been asked for.
void Run::end_filters() {
    bool all_ended = teams.end_filters(0) && !checker.child.pid;
    for (Child *child : rounds.children()) {
        child->signal(SIGKILL);
        all_ended &= !child->running;
    }
    if (checker.child.ended()) return verdict();  // by itself, before it was asked to
    if (!all_ended) return;
    phase = SOLVING;
    if (teams.is_copied_no_more(0)) return;  // it may have read more of the proof than it has kept
    inputs.options.filters = inputs.options.engines = 1;
    inputs.keep();
    Folder::clear();
    display.forget();
    teams.forget_filters();
    teams.open(1);
    rounds.~Rounds();
    new (&rounds) Rounds(inputs, teams, checker, display);
    rounds.begin();
    teams.start(false);
}

void Run::end_streams() {
    bool is_late = now() >= ending;
    if (is_late) ending = INFINITY;
    if (!teams.end_streams(is_late)) return;
    rounds.end_streams();
    phase = CHECKING;
}

// The verdict depends only on lrupd's status. The answer is printed even if the report can't be
// kept.
void Run::verdict() {
    display.show_lines();
    bool is_proved = checker.child.ended_with(0) || checker.child.ended_with(8);
    bool is_unknown = checker.child.ended_with(UNKNOWN_STATUS) && !rounds.is_behind();
    if (is_proved || is_unknown) unkept = rounds.keep_report();
    has_report = (is_proved || is_unknown) && unkept.empty();
    if (is_proved) return finish(UNSATISFIABLE, "");
    finish(UNKNOWN_ANSWER, is_unknown ? "lrupd hasn't accepted the proof" : end_of_checker());
}

std::string Run::end_of_checker() const {
    bool is_unsaved = checker.child.ended_with(UNSAVED_STATUS);
    bool is_of_record = rounds.is_behind() && rounds.checked > 0;
    std::string where = is_of_record ? ", in round " + std::to_string(rounds.checked) + " of " +
                                           inputs.options.record
                                     : "";
    return "lrupd " + checker.child.end() + where + (is_unsaved ? ": " + Folder::room() : "");
}

// The end.

void Run::finish(Answer found, const std::string &why) {
    if (phase == DONE) return;
    if (saving == 0) saving = now() + SAVING;
    answer = found;
    cause = why;
    phase = DONE;
}

// Waits for the end of one of these, or for a signal. Nothing is fed any more.
void Run::wait_at_end(const std::vector<Child *> &list, double time) {
    std::vector<pollfd> files = { front.to_poll() };
    loop.wait(teams.shared->events, files, time, list);
    if (files[0].revents != 0) front.read_on(&checker);
}

// Ends what isn't needed any more. A round that is being saved may be saved, within a few seconds:
// the last message says which rounds the record has. Another signal ends the wait.
void Run::end_solving() {
    const Child &probe = front.probe.child, &saver = rounds.saver.child;
    for (Child *child : children())
        if (child != &probe && child != &saver) child->signal(SIGKILL);
    while (answer == UNKNOWN_ANSWER && saver.running && !loop.ended_by && now() < saving)
        wait_at_end(children(), saving);
}

// If lrupd refuses the formula, the run says so, no matter how early solving ended. A signal or the
// time limit ends the wait.
void Run::await_reading() {
    while (answer == UNKNOWN_ANSWER && front.probe.child.running && !is_ended() &&
           now() < inputs.deadline())
        wait_at_end(children(), inputs.deadline());
    if (answer == UNKNOWN_ANSWER && !is_ended()) check_probe();
}

// Waits for a tool that is called at the end. False if the run has to end first.
bool Run::await_end(Child &child, double time) {
    bool goes_on = true;
    while (child.running) {
        front.say("busy");  // so the front waits some seconds more
        wait_at_end({ &child }, std::min(time, now() + 1));
        goes_on &= !is_ended() && now() < time;
        if (!goes_on) child.signal(SIGTERM);
    }
    return goes_on;
}

// Says whether a step that doesn't follow would follow if no clause had been deleted before it.
void Run::try_without_deletions(size_t k, double time) {
    const std::string path = teams.proof_of(k), name = teams[k].command + ": ";
    const bool is_open = teams[k].cause.find("doesn't follow from those") != std::string::npos;
    if (!is_open || !is_read_again(path) || is_ended() || now() >= time) return;
    Child trial;
    uint64_t step = LOAD(teams.engine_status(teams.decider(k)).steps);
    display.tell(name + "trying whether it would follow if no clause had been deleted before it");
    if (begin(trial, "trial", {})) {
        raise_oom_score();
        trial_process(&inputs.first_formula, path.c_str(), step);
    }
    await_end(trial, time);
    teams[k].filter.seconds += trial.seconds;
    if (trial.ended_with(FOLLOWS))
        display.tell(name + "it would: see lrup-exact's --ignore-deletions");
    else
        display.tell(name + (trial.ended_with(STILL_NO_STEP) ? "it wouldn't" : "that isn't known"));
}

void Run::end_all() {
    for (Child *child : children()) child->signal(SIGKILL);
    for (Child *child : children()) wait_for(*child);
    rounds.packer.end();
    Keeping::Wait wait_for_end = [this](Child &c) { return await_end(c, inputs.deadline()); };
    if (has_report && answer == UNSATISFIABLE && inputs.options.record)
        remove_checkpoints(inputs.options.record);
    if (has_report) unkept = keeping.describe(checker, rounds.number, wait_for_end);
    std::string why = keeping.keep(answer == UNSATISFIABLE, teams.lost, wait_for_end);
    if (unkept.empty()) unkept = why;
    if (checker.child.ended()) keeping.explain(checker.report, wait_for_end);
    double time = now(), until = time + std::max(TRYING, time - inputs.started);
    bool is_failed = inputs.options.check && answer == UNKNOWN_ANSWER && !checker.child.ended();
    for (size_t k = 0; is_failed && !inputs.options.quiet && k < teams.size(); k++)
        try_without_deletions(k, std::min(inputs.deadline(), until));
    end_children();
}

// What the front is expected to print.
std::string Run::line_of_answer() const {
    if (answer == UNKNOWN_ANSWER) return "s UNKNOWN";
    if (answer == SATISFIABLE) return "s SATISFIABLE";
    return checker.child.ended_with(8) ? "s UNSATISFIABLE UNDER ASSUMPTIONS" : "s UNSATISFIABLE";
}

// The front prints the answer itself, if this process doesn't refuse to give one.
void Run::send_answer() {
    display.hide();
    if (inputs.options.verbose) display.tell_details();
    if (inputs.options.verbose && others) others->tell_details();
    display.tell_lost();
    display.tell_other_hints();
    if (answer == UNKNOWN_ANSWER) display.tell_causes(cause);
    std::string next = rounds.resume_message();
    if (answer == UNKNOWN_ANSWER && !next.empty()) display.tell(next);
    display.tell_record();
    if (inputs.options.in_order) teams.dealer.count(*teams.shared);
    if (inputs.options.in_order && answer == UNSATISFIABLE)
        teams.dealer.refuted = inputs.cubes.size();
    display.tell_cubes(answer == SATISFIABLE);
    display.tell_summary();
    bool is_refused = answer == UNKNOWN_ANSWER && (!unkept.empty() || !unstarted.empty());
    if (!is_refused) display.report_end(line_of_answer());
    if (answer == SATISFIABLE) tell_model(model);
    if (!unkept.empty()) refuse(unkept);
    if (answer == UNKNOWN_ANSWER && !unstarted.empty()) refuse(unstarted);
}

// If its streams ended first, lrupd would save its clauses, which takes seconds on a busy disk.
void Run::end_checker() {
    if (!checker.child.running) return;
    front.say("over");
    for (double time = now() + MOMENT; checker.child.running && now() < time;)
        wait_at_end({}, time);
}

int Run::solve(const Elsewhere *elsewhere) {
    others = elsewhere;
    prepare();
    while (phase != DONE) {
        wait();
        handle_events();
        if (phase != DONE) display.show();
    }
    if (others) others->end(is_ended());
    end_solving();
    await_reading();
    end_all();
    send_answer();
    end_checker();
    Folder::remove();
    return 0;
}
