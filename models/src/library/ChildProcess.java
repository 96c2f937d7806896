package library;

import java.io.IOException;
import java.io.InputStream;
import java.io.OutputStream;

/** A process that was started: its streams are the same at each call, and it may close them when it is destroyed. */
public final class ChildProcess extends Process {
    private final InputStream noInput;
    private final OutputStream noOutput;
    private InputStream out;
    private InputStream err;
    private OutputStream in;

    /** The streams that do nothing, which processes share that are redirected; null where none is. */
    public ChildProcess(InputStream noInput, OutputStream noOutput) {
        this.noInput = noInput;
        this.noOutput = noOutput;
    }

    @Override
    public OutputStream getOutputStream() {
        if (in == null) {
            in = noOutput != null && Library.any() ? noOutput : input();
        }
        return in;
    }

    @Override
    public InputStream getInputStream() {
        if (out == null) {
            out = noInput != null && Library.any() ? noInput : output();
        }
        return out;
    }

    @Override
    public InputStream getErrorStream() {
        if (err == null) {
            err = noInput != null && Library.any() ? noInput : errors();
        }
        return err;
    }

    private native OutputStream input();

    private native InputStream output();

    private native InputStream errors();

    @Override
    public int waitFor() throws InterruptedException {
        sleep();
        return Library.number();
    }

    private native void sleep() throws InterruptedException;

    @Override
    public int exitValue() {
        Library.any();
        return Library.number();
    }

    @Override
    public void destroy() {
        try {
            if (in != null && Library.any()) {
                in.close();
            }
            if (out != null && Library.any()) {
                out.close();
            }
            if (err != null && Library.any()) {
                err.close();
            }
        } catch (IOException fault) {
            Library.any();
        }
    }

    @Override
    public boolean isAlive() {
        return Library.any();
    }
}
