import java.io.*;
import java.util.*;
import java.util.function.*;
import java.util.logging.*;

/** Objects of a user around loggers, handlers, formatters and records, and what makes these. */
class Logs {
    static class Writes extends java.util.logging.Formatter implements Seen {
        public String format(LogRecord record) {
            new Hit("Logs$Writes format(Ljava/util/logging/LogRecord;)Ljava/lang/String;");
            Log.back(record);
            return formatMessage(record);
        }
        public String getHead(Handler of) { new Hit("Logs$Writes getHead(Ljava/util/logging/Handler;)Ljava/lang/String;"); Log.back(of); return "h"; }
        public String getTail(Handler of) { new Hit("Logs$Writes getTail(Ljava/util/logging/Handler;)Ljava/lang/String;"); Log.back(of); return "t"; }
        public void back() { new Hit("Logs$Writes back()V"); }
    }

    /** Fails. */
    static class BadWrites extends java.util.logging.Formatter implements Seen {
        public String format(LogRecord record) { new Hit("Logs$BadWrites format(Ljava/util/logging/LogRecord;)Ljava/lang/String;"); throw new Bad(); }
        public String getTail(Handler of) { new Hit("Logs$BadWrites getTail(Ljava/util/logging/Handler;)Ljava/lang/String;"); throw new Bad(); }
        public void back() { new Hit("Logs$BadWrites back()V"); }
    }

    static class Bad extends RuntimeException implements Seen {
        public String getMessage() { new Hit("Logs$Bad getMessage()Ljava/lang/String;"); return "bad"; }
        public void back() { new Hit("Logs$Bad back()V"); }
    }

    static class Thrown extends Exception implements Seen {
        public String getMessage() { new Hit("Logs$Thrown getMessage()Ljava/lang/String;"); return "bad"; }
        public String toString() { new Hit("Logs$Thrown toString()Ljava/lang/String;"); return "thrown"; }
        public void printStackTrace(PrintWriter to) { new Hit("Logs$Thrown printStackTrace(Ljava/io/PrintWriter;)V"); }
        public void printStackTrace() { new Hit("Logs$Thrown printStackTrace()V"); }
        public StackTraceElement[] getStackTrace() { new Hit("Logs$Thrown getStackTrace()[Ljava/lang/StackTraceElement;"); return new StackTraceElement[0]; }
        public synchronized Throwable getCause() { new Hit("Logs$Thrown getCause()Ljava/lang/Throwable;"); return null; }
        public void back() { new Hit("Logs$Thrown back()V"); }
    }

    static class Asks implements Filter, Seen {
        private static int count;
        public boolean isLoggable(LogRecord record) {
            new Hit("Logs$Asks isLoggable(Ljava/util/logging/LogRecord;)Z");
            Log.back(record);
            return count++ % 3 != 0;
        }
        public void back() { new Hit("Logs$Asks back()V"); }
    }

    static class Faults extends ErrorManager implements Seen {
        public synchronized void error(String text, Exception fault, int code) {
            new Hit("Logs$Faults error(Ljava/lang/String;Ljava/lang/Exception;I)V");
            Log.back(fault);
        }
        public void back() { new Hit("Logs$Faults back()V"); }
    }

    static class Takes extends Handler implements Seen {
        public void publish(LogRecord record) {
            new Hit("Logs$Takes publish(Ljava/util/logging/LogRecord;)V");
            Log.back(record);
            Log.back(record.getThrown());
            Log.backAll(record.getParameters());
            if (isLoggable(record) && getFormatter() != null) {
                getFormatter().format(record);
            }
        }
        public void flush() { new Hit("Logs$Takes flush()V"); reportError("x", new Bad(), 1); }
        public void close() { new Hit("Logs$Takes close()V"); }
        public boolean equals(Object other) { new Hit("Logs$Takes equals(Ljava/lang/Object;)Z"); return this == other; }
        public int hashCode() { new Hit("Logs$Takes hashCode()I"); return 5; }
        public void back() { new Hit("Logs$Takes back()V"); }
    }

    static class Value implements Seen {
        public String toString() { new Hit("Logs$Value toString()Ljava/lang/String;"); return "value"; }
        public void back() { new Hit("Logs$Value back()V"); }
    }

    static class Named extends ResourceBundle implements Seen {
        protected Object handleGetObject(String key) { new Hit("Logs$Named handleGetObject(Ljava/lang/String;)Ljava/lang/Object;"); return "{0} is {1}"; }
        public Enumeration<String> getKeys() { new Hit("Logs$Named getKeys()Ljava/util/Enumeration;"); return null; }
        public String getBaseBundleName() { new Hit("Logs$Named getBaseBundleName()Ljava/lang/String;"); return "named"; }
        public Locale getLocale() { new Hit("Logs$Named getLocale()Ljava/util/Locale;"); return Locale.US; }
        public boolean containsKey(String key) { new Hit("Logs$Named containsKey(Ljava/lang/String;)Z"); return true; }
        public Set<String> keySet() { new Hit("Logs$Named keySet()Ljava/util/Set;"); return new HashSet<String>(); }
        public void back() { new Hit("Logs$Named back()V"); }
    }

    static class Says implements Supplier<String>, Seen {
        public String get() { new Hit("Logs$Says get()Ljava/lang/Object;"); return "said"; }
        public void back() { new Hit("Logs$Says back()V"); }
    }

    /** A record that tells what it is asked. */
    static class Record extends LogRecord implements Seen {
        Record() { super(Level.SEVERE, "{0}"); setParameters(new Object[] {new Value()}); setThrown(new Thrown()); }
        public String getMessage() { new Hit("Logs$Record getMessage()Ljava/lang/String;"); return super.getMessage(); }
        public Object[] getParameters() { new Hit("Logs$Record getParameters()[Ljava/lang/Object;"); return super.getParameters(); }
        public Throwable getThrown() { new Hit("Logs$Record getThrown()Ljava/lang/Throwable;"); return super.getThrown(); }
        public Level getLevel() { new Hit("Logs$Record getLevel()Ljava/util/logging/Level;"); return super.getLevel(); }
        public ResourceBundle getResourceBundle() { new Hit("Logs$Record getResourceBundle()Ljava/util/ResourceBundle;"); return super.getResourceBundle(); }
        public String getLoggerName() { new Hit("Logs$Record getLoggerName()Ljava/lang/String;"); return super.getLoggerName(); }
        public String getSourceClassName() { new Hit("Logs$Record getSourceClassName()Ljava/lang/String;"); return super.getSourceClassName(); }
        public void back() { new Hit("Logs$Record back()V"); }
    }

    private static Handler with(Handler to) { to.setFilter(new Asks()); to.setErrorManager(new Faults()); return to; }
    private static Logger with(Logger to, Handler handler) { to.setFilter(new Asks()); to.addHandler(handler); to.setUseParentHandlers(false); return to; }

    static Logger logger() { return with(Logger.getLogger("a"), new Takes()); }
    static Logger child() { Logger all = with(Logger.getLogger("a.b"), new Takes()); all.setUseParentHandlers(true); all.setLevel(Level.ALL); return all; }
    static Logger anonymous() { Logger all = with(Logger.getAnonymousLogger(), new StreamHandler(new RecOut(), new Writes())); all.setLevel(Level.ALL); return all; }
    static Logger inBundle() { Logger all = with(Logger.getAnonymousLogger(), new StreamHandler(new RecOut(), new SimpleFormatter())); all.setResourceBundle(new Named()); return all; }
    static Handler takes() { Handler all = with(new Takes()); all.setFormatter(new SimpleFormatter()); return all; }
    static Handler stream() { return with(new StreamHandler(new RecOut(), new Writes())); }
    static Handler badStream() { return with(new StreamHandler(new BadOut(), new XMLFormatter())); }
    static Handler badWrites() { return with(new StreamHandler(new RecOut(), new BadWrites())); }
    static StreamHandler xml() { return new StreamHandler(new RecOut(), new XMLFormatter()); }
    static MemoryHandler memory() { MemoryHandler all = new MemoryHandler(new Takes(), 2, Level.SEVERE); with(all); return all; }
    static MemoryHandler around() { return new MemoryHandler(stream(), 2, Level.INFO); }
    static java.util.logging.Formatter writes() { return new Writes(); }
    static java.util.logging.Formatter badWrite() { return new BadWrites(); }
    static ErrorManager faults() { return new Faults(); }
    static Filter asks() { return new Asks(); }
    static LogRecord record() { return new Record(); }
    static LogRecord plain() { LogRecord all = new LogRecord(Level.SEVERE, "{0}"); all.setThrown(new Thrown()); all.setResourceBundle(new Named()); all.setParameters(new Object[] {new Value()}); return all; }
    static Level severe() { return Level.SEVERE; }
    static Level info() { return Level.INFO; }
    static Level all() { return Level.ALL; }
    static Level fine() { return Level.FINE; }
    static Object value() { return new Value(); }
    static Throwable thrown() { return new Thrown(); }
    static Exception bad() { return new Bad(); }
    static ResourceBundle named() { return new Named(); }
    static Supplier<String> says() { return new Says(); }
    static OutputStream out() { return new RecOut(); }
    static OutputStream badOut() { return new BadOut(); }
    static InputStream in() { Data.at = 0; return new RecIn(); }
    static LogManager manager() { return LogManager.getLogManager(); }

    static void moreRecords() throws Exception {
        Logger all = inBundle();
        all.setLevel(Level.ALL);
        for (int at = 0; at < 4; at++) {
            all.log(Level.SEVERE, "{0}", new Object[] {new Value()});
            all.log(Level.SEVERE, "x", new Thrown());
            all.log(new Record());
            all.fine(new Says());
            all.logrb(Level.SEVERE, "c", "m", new Named(), "{0}", new Value());
            all.entering("c", "m", new Object[] {new Value()});
            all.throwing("c", "m", new Thrown());
        }
        Log.backAll(all.getHandlers());
        Log.back(all.getFilter());
        Log.back(all.getResourceBundle());
    }

    static void moreKept() throws Exception {
        MemoryHandler all = new MemoryHandler(new Takes(), 2, Level.OFF);
        all.publish(new Record());
        all.publish(plain());
        all.publish(new Record());
        all.push();
        all.setPushLevel(Level.ALL);
        all.publish(plain());
        all.flush();
        all.close();
    }

    static void moreFaults() throws Exception {
        StreamHandler all = new StreamHandler(new BadOut(), new BadWrites());
        all.setErrorManager(new Faults());
        all.publish(new Record());
        all.setFormatter(new SimpleFormatter());
        all.publish(plain());
        all.flush();
        all.close();
    }

    static void moreConfigurations() throws Exception {
        Logger kept = logger();
        Logger.getLogger("a.b").severe("x");
        LogManager.getLogManager().readConfiguration(new RecIn());
        Log.backAll(kept.getHandlers());
        LogManager.getLogManager().reset();
    }

    static void moreParents() throws Exception {
        Logger one = Logger.getAnonymousLogger();
        one.setParent(logger());
        one.severe("x");
        one.log(Level.SEVERE, new Thrown(), new Says());
        Log.back(one.getParent());
        new Takes().flush();
    }
}
