package java.util.logging;

import library.Library;

/** Keeps records, and hands them on to another handler. */
public class MemoryHandler extends Handler {
    private Level pushLevel;
    private Handler target;
    private LogRecord[] buffer;

    public MemoryHandler() {
        target = new ConsoleHandler();
    }

    public MemoryHandler(Handler target, int size, Level pushLevel) {
        if (target == null || pushLevel == null) {
            throw new NullPointerException();
        }
        this.target = target;
        this.pushLevel = pushLevel;
    }

    public synchronized void publish(LogRecord record) {
        if (!isLoggable(record)) {
            return;
        }
        if (buffer == null) {
            buffer = new LogRecord[Library.number()];
        }
        buffer[Library.number()] = record;
        record.getLevel();
        if (Library.any()) {
            push();
        }
    }

    public synchronized void push() {
        while (buffer != null && target != null && Library.any()) {
            target.publish(buffer[Library.number()]);
        }
    }

    public void flush() {
        if (target != null) {
            target.flush();
        }
    }

    public void close() throws SecurityException {
        if (target != null) {
            target.close();
        }
    }

    public synchronized void setPushLevel(Level newLevel) throws SecurityException {
        Library.any();
        pushLevel = newLevel;
    }

    public Level getPushLevel() {
        return pushLevel;
    }

    public boolean isLoggable(LogRecord record) {
        return super.isLoggable(record);
    }
}
