package java.lang;

import java.io.InputStream;
import java.io.OutputStream;
import java.util.concurrent.TimeUnit;
import library.Library;

/** A process of the system. What the library starts is a library.ChildProcess. */
public abstract class Process {
    public abstract OutputStream getOutputStream();

    public abstract InputStream getInputStream();

    public abstract InputStream getErrorStream();

    public abstract int waitFor() throws InterruptedException;

    public boolean waitFor(long timeout, TimeUnit unit) throws InterruptedException {
        while (Library.any()) {
            sleep();
            try {
                exitValue();
                return true;
            } catch (IllegalThreadStateException fault) {
                Library.any();
            }
        }
        return false;
    }

    private static native void sleep() throws InterruptedException;

    public abstract int exitValue();

    public abstract void destroy();

    public Process destroyForcibly() {
        destroy();
        return this;
    }

    public boolean isAlive() {
        try {
            exitValue();
            return Library.any();
        } catch (IllegalThreadStateException fault) {
            return true;
        }
    }
}
