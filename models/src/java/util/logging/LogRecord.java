package java.util.logging;

import java.io.Serializable;
import java.util.ResourceBundle;
import library.Library;

/** What is to be logged: it holds objects that a handler may ask for their texts. */
public class LogRecord implements Serializable {
    private Level level;
    private String sourceClassName;
    private String sourceMethodName;
    private String message;
    private Throwable thrown;
    private String loggerName;
    private String resourceBundleName;
    private transient Object[] parameters;
    private transient ResourceBundle resourceBundle;

    public LogRecord(Level level, String msg) {
        this.level = level;
        this.message = msg;
    }

    public String getLoggerName() {
        return loggerName == null && Library.any() ? Library.text() : loggerName;
    }

    public void setLoggerName(String loggerName) {
        this.loggerName = loggerName;
    }

    public ResourceBundle getResourceBundle() {
        return resourceBundle;
    }

    public void setResourceBundle(ResourceBundle resourceBundle) {
        this.resourceBundle = resourceBundle;
    }

    public String getResourceBundleName() {
        return resourceBundleName == null && Library.any() ? Library.text() : resourceBundleName;
    }

    public void setResourceBundleName(String resourceBundleName) {
        this.resourceBundleName = resourceBundleName;
    }

    public Level getLevel() {
        return level == null && Library.any() ? found() : level;
    }

    private static native Level found();

    public void setLevel(Level level) {
        this.level = level;
    }

    public long getSequenceNumber() {
        return Library.number();
    }

    public void setSequenceNumber(long value) {
    }

    public String getSourceClassName() {
        return sourceClassName == null || Library.any() ? Library.text() : sourceClassName;
    }

    public void setSourceClassName(String sourceClassName) {
        this.sourceClassName = sourceClassName;
    }

    public String getSourceMethodName() {
        return sourceMethodName == null || Library.any() ? Library.text() : sourceMethodName;
    }

    public void setSourceMethodName(String sourceMethodName) {
        this.sourceMethodName = sourceMethodName;
    }

    public String getMessage() {
        return message == null && Library.any() ? Library.text() : message;
    }

    public void setMessage(String message) {
        this.message = message;
    }

    public Object[] getParameters() {
        return parameters;
    }

    public void setParameters(Object[] parameters) {
        this.parameters = parameters;
    }

    public int getThreadID() {
        return Library.number();
    }

    public void setThreadID(int value) {
    }

    public long getMillis() {
        return Library.number();
    }

    public void setMillis(long value) {
    }

    public Throwable getThrown() {
        return thrown;
    }

    public void setThrown(Throwable thrown) {
        this.thrown = thrown;
    }
}
