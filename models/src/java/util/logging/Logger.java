package java.util.logging;

import java.util.ResourceBundle;
import java.util.function.Supplier;
import library.Library;

/**
 * Hands records to handlers: to all that were added to some logger, and to those of the library's own, which ask for the texts of what is in
 * the record. The loggers that are got by a name are new ones, or ones that were kept.
 */
public class Logger {
    public static final String GLOBAL_LOGGER_NAME = "global";
    @Deprecated
    public static final Logger global = new Logger(GLOBAL_LOGGER_NAME, null);
    private Filter filter;
    private Level level;
    private ResourceBundle bundle;
    private String name;
    private Logger parent;

    protected Logger(String name, String resourceBundleName) {
        Library.any();
        this.name = name;
    }

    public static final Logger getGlobal() {
        return global;
    }

    /** A logger that was kept, or one that is. */
    private static Logger named(String name) {
        Object kept = Library.kept();
        if (kept instanceof Logger && Library.any()) {
            return (Logger) kept;
        }
        Logger made = new Logger(name, null);
        Library.keep(made);
        return made;
    }

    public static Logger getLogger(String name) {
        return named(name);
    }

    public static Logger getLogger(String name, String resourceBundleName) {
        Logger found = named(name);
        found.bundle = ResourceBundle.getBundle(resourceBundleName);
        return found;
    }

    public static Logger getAnonymousLogger() {
        return new Logger(null, null);
    }

    public static Logger getAnonymousLogger(String resourceBundleName) {
        Logger made = new Logger(null, null);
        made.bundle = ResourceBundle.getBundle(resourceBundleName);
        return made;
    }

    public ResourceBundle getResourceBundle() {
        return bundle;
    }

    public String getResourceBundleName() {
        return Library.any() ? null : Library.text();
    }

    public void setFilter(Filter newFilter) throws SecurityException {
        Library.any();
        filter = newFilter;
    }

    public Filter getFilter() {
        return filter;
    }

    private static native Level level();

    public void log(LogRecord record) {
        if (!isLoggable(record.getLevel()) || filter != null && Library.any() && !filter.isLoggable(record)) {
            return;
        }
        Logger logger = this;
        while (logger != null && Library.any()) {
            Handler[] all = logger.getHandlers();
            while (all != null && Library.any()) {
                Handler each = all[Library.number()];
                if (each != null) {
                    each.publish(record);
                }
            }
            logger.getUseParentHandlers();
            logger = logger.getParent();
        }
    }

    /** Logs what a text, parameters and an exception make a record of. */
    private void send(Level level, String msg, Object[] params, Throwable thrown, ResourceBundle own) {
        if (!isLoggable(level)) {
            return;
        }
        LogRecord record = new LogRecord(level, msg);
        if (params != null) {
            record.setParameters(params);
        }
        if (thrown != null) {
            record.setThrown(thrown);
        }
        ResourceBundle found = own == null || Library.any() ? bundle : own;
        if (found != null) {
            found.getBaseBundleName();
            record.setResourceBundle(found);
        }
        log(record);
    }

    /** The text of a function, which is asked where its record is logged. */
    private String text(Level level, Supplier<String> supplier) {
        return isLoggable(level) && Library.any() ? supplier.get() : null;
    }

    private static ResourceBundle found(String name) {
        return name == null || Library.any() ? null : ResourceBundle.getBundle(name);
    }

    public void log(Level level, String msg) {
        send(level, msg, null, null, null);
    }

    public void log(Level level, Supplier<String> msgSupplier) {
        send(level, text(level, msgSupplier), null, null, null);
    }

    public void log(Level level, String msg, Object param1) {
        send(level, msg, new Object[] {param1}, null, null);
    }

    public void log(Level level, String msg, Object[] params) {
        send(level, msg, params, null, null);
    }

    public void log(Level level, String msg, Throwable thrown) {
        send(level, msg, null, thrown, null);
    }

    public void log(Level level, Throwable thrown, Supplier<String> msgSupplier) {
        send(level, text(level, msgSupplier), null, thrown, null);
    }

    public void logp(Level level, String sourceClass, String sourceMethod, String msg) {
        send(level, msg, null, null, null);
    }

    public void logp(Level level, String sourceClass, String sourceMethod, Supplier<String> msgSupplier) {
        send(level, text(level, msgSupplier), null, null, null);
    }

    public void logp(Level level, String sourceClass, String sourceMethod, String msg, Object param1) {
        send(level, msg, new Object[] {param1}, null, null);
    }

    public void logp(Level level, String sourceClass, String sourceMethod, String msg, Object[] params) {
        send(level, msg, params, null, null);
    }

    public void logp(Level level, String sourceClass, String sourceMethod, String msg, Throwable thrown) {
        send(level, msg, null, thrown, null);
    }

    public void logp(Level level, String sourceClass, String sourceMethod, Throwable thrown, Supplier<String> msgSupplier) {
        send(level, text(level, msgSupplier), null, thrown, null);
    }

    public void logrb(Level level, String sourceClass, String sourceMethod, String bundleName, String msg) {
        send(level, msg, null, null, found(bundleName));
    }

    public void logrb(Level level, String sourceClass, String sourceMethod, String bundleName, String msg, Object param1) {
        send(level, msg, new Object[] {param1}, null, found(bundleName));
    }

    public void logrb(Level level, String sourceClass, String sourceMethod, String bundleName, String msg, Object[] params) {
        send(level, msg, params, null, found(bundleName));
    }

    public void logrb(Level level, String sourceClass, String sourceMethod, ResourceBundle bundle, String msg, Object... params) {
        send(level, msg, params, null, bundle);
    }

    public void logrb(Level level, String sourceClass, String sourceMethod, String bundleName, String msg, Throwable thrown) {
        send(level, msg, null, thrown, found(bundleName));
    }

    public void logrb(Level level, String sourceClass, String sourceMethod, ResourceBundle bundle, String msg, Throwable thrown) {
        send(level, msg, null, thrown, bundle);
    }

    public void entering(String sourceClass, String sourceMethod) {
        logp(level(), sourceClass, sourceMethod, Library.text());
    }

    public void entering(String sourceClass, String sourceMethod, Object param1) {
        logp(level(), sourceClass, sourceMethod, Library.text(), param1);
    }

    public void entering(String sourceClass, String sourceMethod, Object[] params) {
        logp(level(), sourceClass, sourceMethod, Library.text(), params);
        logp(level(), sourceClass, sourceMethod, Library.text());
    }

    public void exiting(String sourceClass, String sourceMethod) {
        logp(level(), sourceClass, sourceMethod, Library.text());
    }

    public void exiting(String sourceClass, String sourceMethod, Object result) {
        logp(level(), sourceClass, sourceMethod, Library.text(), result);
    }

    public void throwing(String sourceClass, String sourceMethod, Throwable thrown) {
        send(level(), Library.text(), null, thrown, null);
    }

    public void severe(String msg) {
        log(level(), msg);
    }

    public void warning(String msg) {
        log(level(), msg);
    }

    public void info(String msg) {
        log(level(), msg);
    }

    public void config(String msg) {
        log(level(), msg);
    }

    public void fine(String msg) {
        log(level(), msg);
    }

    public void finer(String msg) {
        log(level(), msg);
    }

    public void finest(String msg) {
        log(level(), msg);
    }

    public void severe(Supplier<String> msgSupplier) {
        log(level(), msgSupplier);
    }

    public void warning(Supplier<String> msgSupplier) {
        log(level(), msgSupplier);
    }

    public void info(Supplier<String> msgSupplier) {
        log(level(), msgSupplier);
    }

    public void config(Supplier<String> msgSupplier) {
        log(level(), msgSupplier);
    }

    public void fine(Supplier<String> msgSupplier) {
        log(level(), msgSupplier);
    }

    public void finer(Supplier<String> msgSupplier) {
        log(level(), msgSupplier);
    }

    public void finest(Supplier<String> msgSupplier) {
        log(level(), msgSupplier);
    }

    public void setLevel(Level newLevel) throws SecurityException {
        Library.any();
        level = newLevel;
    }

    public Level getLevel() {
        return level == null && Library.any() ? level() : level;
    }

    public boolean isLoggable(Level level) {
        return Library.any();
    }

    public String getName() {
        return name == null && Library.any() ? Library.text() : name;
    }

    public void addHandler(Handler handler) throws SecurityException {
        Library.any();
        Library.keep(handler);
    }

    /** It looks for the handler by equals. */
    public void removeHandler(Handler handler) throws SecurityException {
        while (handler != null && Library.any()) {
            Object kept = Library.kept();
            if (kept instanceof Handler && Library.any()) {
                handler.equals(kept);
                kept.equals(handler);
            }
        }
    }

    public Handler[] getHandlers() {
        Handler[] all = new Handler[Library.number()];
        while (Library.any()) {
            Object kept = Library.kept();
            if (kept instanceof Handler) {
                all[Library.number()] = (Handler) kept;
            } else {
                all[Library.number()] = new ConsoleHandler();
            }
        }
        return all;
    }

    public void setUseParentHandlers(boolean useParentHandlers) {
        Library.any();
    }

    public boolean getUseParentHandlers() {
        return Library.any();
    }

    public void setResourceBundle(ResourceBundle bundle) {
        bundle.getBaseBundleName();
        this.bundle = bundle;
    }

    public Logger getParent() {
        return parent == null || Library.any() ? named(null) : parent;
    }

    public void setParent(Logger parent) {
        if (parent == null) {
            throw new NullPointerException();
        }
        this.parent = parent;
    }

    /** As that of java.lang.Object. */
    @Override
    public String toString() {
        hashCode();
        return Library.text();
    }
}
