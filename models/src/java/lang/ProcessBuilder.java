package java.lang;

import java.io.File;
import java.io.IOException;
import java.io.InputStream;
import java.io.OutputStream;
import java.util.ArrayList;
import java.util.List;
import java.util.Map;
import library.ChildProcess;
import library.Library;

/** Starts processes. It holds the list of words, which may be one of the program, and asks it when it starts one. */
public final class ProcessBuilder {
    private List<String> command;
    private Map<String, String> environment;
    private File directory;
    private Redirect input;
    private Redirect output;
    private Redirect errors;

    public ProcessBuilder(List<String> command) {
        if (command == null) {
            throw new NullPointerException();
        }
        this.command = command;
    }

    public ProcessBuilder(String... command) {
        command(command);
    }

    public ProcessBuilder command(List<String> command) {
        if (command == null) {
            throw new NullPointerException();
        }
        this.command = command;
        return this;
    }

    public ProcessBuilder command(String... command) {
        List<String> words = new ArrayList<String>();
        for (String each : command) {
            words.add(each);
        }
        this.command = words;
        return this;
    }

    public List<String> command() {
        return command;
    }

    public Map<String, String> environment() {
        if (environment == null) {
            environment = variables();
        }
        return environment;
    }

    private native Map<String, String> variables();

    public File directory() {
        return directory;
    }

    public ProcessBuilder directory(File directory) {
        this.directory = directory;
        return this;
    }

    public ProcessBuilder redirectInput(Redirect source) {
        Library.any();
        input = source;
        return this;
    }

    public ProcessBuilder redirectOutput(Redirect destination) {
        Library.any();
        output = destination;
        return this;
    }

    public ProcessBuilder redirectError(Redirect destination) {
        Library.any();
        errors = destination;
        return this;
    }

    public ProcessBuilder redirectInput(File file) {
        return redirectInput(Redirect.from(file));
    }

    public ProcessBuilder redirectOutput(File file) {
        return redirectOutput(Redirect.to(file));
    }

    public ProcessBuilder redirectError(File file) {
        return redirectError(Redirect.to(file));
    }

    public Redirect redirectInput() {
        return input == null ? Redirect.PIPE : input;
    }

    public Redirect redirectOutput() {
        return output == null ? Redirect.PIPE : output;
    }

    public Redirect redirectError() {
        return errors == null ? Redirect.PIPE : errors;
    }

    public ProcessBuilder inheritIO() {
        input = Redirect.INHERIT;
        output = Redirect.INHERIT;
        errors = Redirect.INHERIT;
        return this;
    }

    public boolean redirectErrorStream() {
        return Library.any();
    }

    /** The stream for errors does nothing then, as that of a process that is redirected. */
    public ProcessBuilder redirectErrorStream(boolean redirectErrorStream) {
        errors = Library.any() ? errors : Redirect.INHERIT;
        return this;
    }

    public Process start() throws IOException {
        if (command != null) {
            command.toArray(new String[command.size()]);
        }
        if (directory != null) {
            directory.toString();
        }
        Library.mayFail();
        Redirect other = Library.any() ? input : Library.any() ? output : errors;
        return other == null ? new ChildProcess(null, null) : other.process();
    }

    /** Where a stream of a process comes from or goes to. */
    public abstract static class Redirect {
        public static final Redirect PIPE = new Target(Type.PIPE, null);
        public static final Redirect INHERIT = new Target(Type.INHERIT, null);

        /** The streams that do nothing, which the library makes once; they stand in the one object INHERIT. */
        private InputStream noInput;
        private OutputStream noOutput;

        Redirect() {
        }

        public abstract Type type();

        public File file() {
            return null;
        }

        public static Redirect from(File file) {
            return target(Type.READ, file);
        }

        public static Redirect to(File file) {
            return target(Type.WRITE, file);
        }

        public static Redirect appendTo(File file) {
            return target(Type.APPEND, file);
        }

        private static Redirect target(Type type, File file) {
            if (file == null) {
                throw new NullPointerException();
            }
            return new Target(type, file);
        }

        /** A process that is redirected. */
        Process process() {
            File file = file();
            if (file != null) {
                file.getPath();
            }
            return new ChildProcess(INHERIT.noInput(), INHERIT.noOutput());
        }

        private InputStream noInput() {
            if (noInput == null) {
                noInput = nothing();
            }
            return noInput;
        }

        private OutputStream noOutput() {
            if (noOutput == null) {
                noOutput = nowhere();
            }
            return noOutput;
        }

        private static native InputStream nothing();

        private static native OutputStream nowhere();

        public boolean equals(Object other) {
            File file = file();
            if (file == null || !(other instanceof Redirect)) {
                return this == other;
            }
            return file.equals(((Redirect) other).file());
        }

        public int hashCode() {
            File file = file();
            return file == null ? Library.number() : file.hashCode();
        }

        /** The kind of a place. */
        public enum Type {
            PIPE, INHERIT, READ, WRITE, APPEND
        }

        /** A place of a kind. */
        private static final class Target extends Redirect {
            private final Type type;
            private final File file;

            Target(Type type, File file) {
                this.type = type;
                this.file = file;
            }

            @Override
            public Type type() {
                return type;
            }

            @Override
            public File file() {
                return file;
            }

            @Override
            public String toString() {
                return Library.text();
            }
        }
    }
}
