package java.lang;

import java.io.File;
import java.io.IOException;
import java.io.InputStream;
import java.io.OutputStream;
import library.ChildProcess;
import library.Library;

/** The machine that runs the program. Threads that it would run at its end are none that the verifier takes. */
public class Runtime {
    private Runtime() {
    }

    public static native Runtime getRuntime();

    public void exit(int status) {
        Library.any();
    }

    public void addShutdownHook(Thread hook) {
        Library.any();
    }

    public boolean removeShutdownHook(Thread hook) {
        return Library.any();
    }

    public void halt(int status) {
        Library.any();
    }

    public static void runFinalizersOnExit(boolean value) {
        Library.any();
    }

    public Process exec(String command) throws IOException {
        return start();
    }

    public Process exec(String command, String[] envp) throws IOException {
        return start();
    }

    public Process exec(String command, String[] envp, File dir) throws IOException {
        return start(dir);
    }

    public Process exec(String[] cmdarray) throws IOException {
        return start();
    }

    public Process exec(String[] cmdarray, String[] envp) throws IOException {
        return start();
    }

    public Process exec(String[] cmdarray, String[] envp, File dir) throws IOException {
        return start(dir);
    }

    private static Process start(File place) throws IOException {
        if (place != null) {
            place.toString();
        }
        return start();
    }

    private static Process start() throws IOException {
        Library.mayFail();
        return new ChildProcess(null, null);
    }

    public native int availableProcessors();

    public native long freeMemory();

    public native long totalMemory();

    public native long maxMemory();

    public native void gc();

    public void runFinalization() {
        Library.any();
    }

    public native void traceInstructions(boolean on);

    public native void traceMethodCalls(boolean on);

    public void load(String filename) {
        Library.any();
    }

    public void loadLibrary(String libname) {
        Library.any();
    }

    public InputStream getLocalizedInputStream(InputStream in) {
        return in;
    }

    public OutputStream getLocalizedOutputStream(OutputStream out) {
        return out;
    }
}
