// Tries gwb.hpp in a program without exceptions (-fno-exceptions): a Session, whose calls give Results. The last line counts.
#include "checks.h"
#include "gwb_features.hpp"
#include "gwb_history.hpp"
#include <cstdio>
#include <sys/wait.h>
#include <unistd.h>

#if defined(__cpp_exceptions)
#error "compile with -fno-exceptions"
#endif

using namespace gwb_session;

// Whether a call ends the program.
static bool terminates(void (*call)())
{
    std::fflush(stdout);
    const pid_t child = fork();
    if (child == 0) {
        std::set_terminate([] { _exit(7); });
        call();
        _exit(0);
    }
    int status = 0;
    return waitpid(child, &status, 0) == child && WIFEXITED(status) && WEXITSTATUS(status) == 7;
}

static void try_no_value()
{
    check(terminates([] { (void)*Result<Solid>(Failure{Problem::refused}); }), "the value of a result that has none");
    check(terminates([] { (void)Result<FaceRow>(Failure{Problem::absent})->solid; }), "a part of it");
    check(!terminates([] { (void)*Result<Solid>(Solid(1)); }), "the value of one that has one");
}

static void try_commands(Session &session)
{
    Result<Solid> block = session.block({0, 0, 0}, {4, 4, 4});
    check(block && *block == Solid(1) && (*session.fresh<Face>())->last == Face(6), "a block");
    Result<void> refused = session.kvfs(*block);
    check(!refused && refused.error().is(GWB_WHY_NOT_BARE) && refused.error().value == 1, "what is refused");
    Result<gwb_wide> volume = session.six_volumes(*block);
    check(volume && narrowed(*volume) == 384 && !narrowed({1, 0}), "a volume");
    check(session.six_volumes(Solid(9)).error().is(GWB_WHY_NO_SOLID), "the volume of no solid");
    check(session.run("blok").error().problem == Problem::fault && *session.run("volume 1") == GWB_VOLUME, "lines");
    check(session.reply() && *session.reply() == "volume 384\n", "a reply");
    check(!*session.fresh<Face>() && *session.greatest<Edge>() == Edge(12) && *session.next_free<Face>() == Face(7), "numbers");
}

static void try_readers(const Session &session)
{
    std::size_t edges = 0;
    for (Face face : session.faces(Solid(1)))
        for (Edge edge : session.edges_of(face))
            edges += (*session.faces_of(edge))[0] == face || (*session.faces_of(edge))[1] == face;
    check(edges == 24, "the edges of all faces");
    check(session.face(Face(9)).error().problem == Problem::absent && session.face(Face(9)).error().value == 9, "a face that is not in use");
    check(session.half_edges(Loop(1))->size() == 4 && session.half_edge_rows()->size() == 24 && session.vertex_rows()->size() == 8, "all at once");
    check(session.half_edge_rows(Solid())->empty() && session.faces(Solid(9)).empty() && session.faces(Solid(9)).is_open(), "none of an open session");
}

static void try_drafts(Session &session)
{
    Result<Session::Draft> draft = session.draft();
    check(draft && session.undo().error().problem == Problem::in_draft, "a draft takes operators alone");
    check(session.mev(plus(Edge(7)), plus(Edge(7)), {0, 0, 9}) && draft->commit(), "a draft that is committed");
    check(draft->commit().error().problem == Problem::no_draft && *session.depth() == 2, "one that has ended");
}

static void try_layers(Session &session)
{
    Notes<Face, int> notes(session);
    const Result<Copy> copy = copy_solid(session, Solid(1), Motion::move({9, 0, 0}));
    check(copy && *copy == Solid(2) && copy_solid(session, Solid(9)).error().is(GWB_WHY_NO_SOLID), "a copy");
    notes[*session.greatest<Face>()] = 7;
    const Changes changes = follow(session, [&] { (void)kill_solid(session, *copy); }, notes);
    check(changes.faces.removed.size() == 6 && notes.all().empty(), "what was killed");
    check(session.undo() && session.undo(), "both are commands");
}

static void try_features()
{
    Session session = std::move(*Session::opened());
    const Result<Profile> plate = profile(session, {{0, 0, 0}, {9, 0, 0}, {9, 8, 0}, {0, 8, 0}}, {0, 0, 7});
    check(plate && pocket(session, plate->far, {{2, 2, 7}, {4, 2, 7}, {4, 4, 7}}, 3), "a pocket in a plate");
    const Result<Pocket> deep = pocket(session, plate->far, {{6, 2, 7}, {8, 2, 7}, {8, 4, 7}}, 7);
    check(deep.error().is(Misfit::meets) && std::string_view(deep.error().name()) == "Meets" && std::string_view(deep.error().text()) == gwb_cause_text(GWB_CAUSE_TOUCHES_FACE) &&
              *deep.error().text() != '\0' && deep.error().hit.kind == GWB_FACE, "one that reaches the far side");
    static_assert(sizeof(Failure) <= 24, "what a refused call gives is small");
    check(session.hit() && session.hit()->number == deep.error().hit.number && session.hit()->cause == GWB_CAUSE_TOUCHES_FACE, "the session tells it too");
    check(slot(session, plate->far, {6, 0, 7}, {6, 8, 7}, 2, 1) && *session.depth() == 3 && !session.hit(), "a slot");
    check(off_lattice(session, plate->solid, {2, 0, 0, -3})->factor().low == 2, "a cut between whole points");
}

static void try_ends(Session session)
{
    Session moved = std::move(session);
    check(*moved.depth() == 2 && session.depth().error().problem == Problem::closed, "a session that was moved from");
    const auto is_closed = [](const auto &result) { return result.error().problem == Problem::closed; };
    check(is_closed(session.half_edge_rows()) && is_closed(session.half_edge_rows(Solid())) && is_closed(session.half_edge_rows(Face(1))), "its rows");
    check(is_closed(session.vertex_rows()) && is_closed(session.half_edges(Loop(1))), "all of its rows");
    check(!session.faces(Solid(1)).is_open() && moved.faces(Solid(1)).is_open(), "and its ranges are closed");
    std::size_t seen = 0;
    for (Face face : moved.faces(Solid(1))) {
        seen += face.number();
        gwb_close(moved.handle());
    }
    check(seen == 1 && !moved.is_open() && moved.faces(Solid(1)).empty() && !moved.faces(Solid(1)).is_open() && is_closed(moved.half_edge_rows()),
          "a range ends where its session is closed");
}

int main()
{
    try_no_value();
    Result<Session> session = Session::opened();
    check(static_cast<bool>(session), "a session");
    try_commands(*session);
    try_readers(*session);
    try_drafts(*session);
    try_layers(*session);
    try_features();
    try_ends(std::move(*session));
    return counted();
}
