/// @file gwb_export.hpp What a session holds as a file of another form, for C++17 on POSIX: by the companions' programs gwb-step and gwb-mesh, which are
/// sought in the folder that the environment variable GWB_COMPANIONS names, else as any program is.
///
///     export_to(bench, "part.step");                         // or .stp .p21 .3mf .stl .obj .off .glb
///     export_to(bench, "part.stl", "", Step{1, 1000});           // of a session whose coordinates are 1/1000 mm, as lengths of gwb_lengths.hpp are
///     export_to(bench, "part.3mf", "part.script");           // with the names, colours and unit that comments of this file say
#ifndef GWB_EXPORT_HPP
#define GWB_EXPORT_HPP
#include "gwb.hpp"
#include <algorithm>
#include <cerrno>
#include <cstdio>
#include <cstdlib>
#include <cstring>
#include <fcntl.h>
#include <spawn.h>
#include <sys/wait.h>

extern char **environ;

namespace gwb_session {

/// Why nothing was exported.
enum class ExportFault {
    no_form,    ///< no program writes files of this ending
    no_program, ///< the program wasn't found, or can't be started
    refused,    ///< the program refuses the model, as where nothing is held or a face isn't flat
    no_file     ///< the file can't be written
};

/// The name of a fault.
[[nodiscard]] constexpr const char *export_fault_name(ExportFault fault)
{
    switch (fault) {
    case ExportFault::no_form: return "NoForm";
    case ExportFault::no_program: return "NoProgram";
    case ExportFault::refused: return "Refused";
    case ExportFault::no_file: return "NoFile";
    }
    return "";
}

/// What came of it: nothing is written where there is a fault, and a file that was there is as before.
struct Exported {
    std::optional<ExportFault> fault;
    std::string said; ///< of the fault, or warnings, as of solids that touch
    explicit operator bool() const { return !fault; }
};

/// How many millimetres a coordinate is: a fraction above zero. All files are in millimetres.
struct Step {
    std::uint32_t numerator = 1, denominator = 1;
};

namespace exporting {

/// Files of an ending: the program that writes them, and what follows its `--form`, nothing where it writes one form alone.
struct Writer {
    const char *ending, *program, *form;
};
inline constexpr Writer writers[] = {
    {"step", "gwb-step", ""},   {"stp", "gwb-step", ""},    {"p21", "gwb-step", ""},    {"3mf", "gwb-mesh", "3mf"},
    {"stl", "gwb-mesh", "stl"}, {"obj", "gwb-mesh", "obj"}, {"off", "gwb-mesh", "off"}, {"glb", "gwb-mesh", "glb"},
};

/// An open file without a name, gone at the end of its scope.
class Unnamed {
public:
    Unnamed() : file_(std::tmpfile()) {}
    Unnamed(const Unnamed &) = delete;
    Unnamed &operator=(const Unnamed &) = delete;
    ~Unnamed()
    {
        if (file_ != nullptr)
            std::fclose(file_);
    }
    explicit operator bool() const { return file_ != nullptr; }
    [[nodiscard]] int number() const { return fileno(file_); }
    /// Writes a text and goes back to its start: whether that was possible.
    [[nodiscard]] bool holds(const std::string &text)
    {
        const bool is_written = std::fwrite(text.data(), 1, text.size(), file_) == text.size() && std::fflush(file_) == 0;
        std::rewind(file_);
        return is_written;
    }
    /// All that was written to it.
    [[nodiscard]] std::string text()
    {
        std::string found;
        std::rewind(file_);
        for (int byte = std::fgetc(file_); byte != EOF; byte = std::fgetc(file_))
            found.push_back(static_cast<char>(byte));
        return found;
    }

private:
    std::FILE *file_;
};

/// What writes a file of this name, by its ending in letters of either case: null where nothing does.
inline const Writer *writer_of(const std::string &path)
{
    const std::size_t dot = path.rfind('.');
    std::string ending = dot == std::string::npos ? "" : path.substr(dot + 1);
    std::transform(ending.begin(), ending.end(), ending.begin(),
                   [](char letter) { return letter >= 'A' && letter <= 'Z' ? static_cast<char>(letter + 32) : letter; });
    const Writer *const found = std::find_if(std::begin(writers), std::end(writers), [&](const Writer &writer) { return ending == writer.ending; });
    return found == std::end(writers) ? nullptr : found;
}

/// What is said where nothing writes a file of this name.
inline std::string endings_for(const std::string &path)
{
    std::string said = path + ": the endings are";
    for (const Writer &writer : writers)
        said.append(" ").append(writer.ending);
    return said;
}

/// The words of the command that writes files of an ending.
inline std::vector<std::string> command(const Writer &writer, const std::string &names, const std::optional<Step> &step)
{
    const char *const folder = std::getenv("GWB_COMPANIONS");
    std::vector<std::string> words{folder == nullptr ? writer.program : std::string(folder) + "/" + writer.program};
    if (*writer.form != 0)
        words.insert(words.end(), {"--form", writer.form});
    if (!names.empty())
        words.insert(words.end(), {"--names", names});
    if (step)
        words.insert(words.end(), {"--unit", std::to_string(step->numerator) + "/" + std::to_string(step->denominator)});
    return words;
}

/// Runs a command that reads one file and writes another, and what it has to say to a third: its status, or -1 and errno where it isn't started.
inline int run(std::vector<std::string> words, int input, int output, int said)
{
    std::vector<char *> pointers;
    for (std::string &word : words)
        pointers.push_back(word.data());
    pointers.push_back(nullptr);
    posix_spawn_file_actions_t actions;
    posix_spawn_file_actions_init(&actions);
    posix_spawn_file_actions_adddup2(&actions, input, 0);
    posix_spawn_file_actions_adddup2(&actions, output, 1);
    posix_spawn_file_actions_adddup2(&actions, said, 2);
    pid_t process = 0;
    int status = -1;
    errno = posix_spawnp(&process, pointers[0], &actions, nullptr, pointers.data(), environ);
    posix_spawn_file_actions_destroy(&actions);
    if (errno == 0)
        while (waitpid(process, &status, 0) < 0 && errno == EINTR)
            ;
    return status;
}

} // namespace exporting

/// Writes what is held to a file, by the ending of its name. `names` is a script whose comments say names, colours and the unit, or empty. Without
/// `step` a coordinate is as large as they say, else a millimetre. A reader.
template <class Policy>
Exported try_export(const Commands<Policy> &bench, const std::string &path, const std::string &names = "", const std::optional<Step> &step = {})
{
    const exporting::Writer *const writer = exporting::writer_of(path);
    if (writer == nullptr)
        return {ExportFault::no_form, exporting::endings_for(path)};
    const std::vector<std::string> words = exporting::command(*writer, names, step);
    exporting::Unnamed input, output, said;
    const Result<std::string> listing = bench.attempt().listing();
    if (!listing)
        return {ExportFault::refused, listing.error().name()};
    if (!input || !output || !said || !input.holds(*listing))
        return {ExportFault::no_file, std::strerror(errno)};
    const int status = exporting::run(words, input.number(), output.number(), said.number());
    if (status == -1)
        return {ExportFault::no_program, words[0] + ": " + std::strerror(errno)};
    if (status != 0)
        return {ExportFault::refused, said.text()};
    std::FILE *file = std::fopen(path.c_str(), "wb");
    const std::string data = output.text();
    const bool is_written = file != nullptr && std::fwrite(data.data(), 1, data.size(), file) == data.size();
    if (file == nullptr || std::fclose(file) != 0 || !is_written)
        return {ExportFault::no_file, path + ": " + std::strerror(errno)};
    return {{}, said.text()};
}

#if defined(__cpp_exceptions)
/// Nothing was exported.
class NotExported : public std::runtime_error {
public:
    explicit NotExported(const Exported &exported)
        : std::runtime_error(std::string(export_fault_name(*exported.fault)) + ": " + exported.said), fault_(*exported.fault)
    {
    }
    [[nodiscard]] ExportFault fault() const noexcept { return fault_; }

private:
    ExportFault fault_;
};

/// The same, which throws NotExported: warnings, as of solids that touch.
inline std::string export_to(const Workbench &bench, const std::string &path, const std::string &names = "", const std::optional<Step> &step = {})
{
    const Exported exported = try_export(bench, path, names, step);
    if (!exported)
        throw NotExported(exported);
    return exported.said;
}
#endif

} // namespace gwb_session
#endif
