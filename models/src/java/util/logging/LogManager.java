package java.util.logging;

import java.beans.PropertyChangeEvent;
import java.beans.PropertyChangeListener;
import java.io.IOException;
import java.io.InputStream;
import java.util.Enumeration;
import library.Library;
import library.Sources;

/** Has the loggers: those that were kept. To configure them anew closes the handlers that were kept, and tells listeners. */
public class LogManager {
    public static final String LOGGING_MXBEAN_NAME = "java.util.logging:type=Logging";

    protected LogManager() {
    }

    /** One that is kept as the program's own may be. */
    public static LogManager getLogManager() {
        Object kept = Library.kept();
        return kept instanceof LogManager && Library.any() ? (LogManager) kept : new LogManager();
    }

    @Deprecated
    public void addPropertyChangeListener(PropertyChangeListener l) throws SecurityException {
        Library.any();
        Library.keep(l);
    }

    @Deprecated
    public void removePropertyChangeListener(PropertyChangeListener l) throws SecurityException {
        while (l != null && Library.any()) {
            l.equals(Library.kept());
        }
    }

    public boolean addLogger(Logger logger) {
        logger.getName();
        Library.keep(logger);
        return Library.any();
    }

    public Logger getLogger(String name) {
        Object kept = Library.kept();
        if (kept instanceof Logger) {
            return (Logger) kept;
        }
        return Library.any() ? null : Logger.getLogger(name);
    }

    public native Enumeration<String> getLoggerNames();

    public void readConfiguration() throws IOException, SecurityException {
        Library.mayFail();
        configure();
    }

    public void reset() throws SecurityException {
        Library.any();
        close();
    }

    private static void close() {
        while (Library.any()) {
            Object kept = Library.kept();
            if (kept instanceof Handler) {
                ((Handler) kept).close();
            }
            if (kept instanceof Logger) {
                Handler[] all = ((Logger) kept).getHandlers();
                if (all != null) {
                    ((Logger) kept).removeHandler(all[Library.number()]);
                }
                ((Logger) kept).setLevel(null);
            }
        }
    }

    public void readConfiguration(InputStream ins) throws IOException, SecurityException {
        Library.mayFail();
        Sources.read(ins);
        configure();
    }

    private void configure() {
        reset();
        while (Library.any()) {
            Object kept = Library.kept();
            if (kept instanceof PropertyChangeListener) {
                ((PropertyChangeListener) kept).propertyChange(new PropertyChangeEvent(LogManager.class, null, null, null));
            }
        }
    }

    public String getProperty(String name) {
        return Library.any() ? null : Library.text();
    }

    public void checkAccess() throws SecurityException {
        Library.any();
    }

    public static synchronized native LoggingMXBean getLoggingMXBean();
}
