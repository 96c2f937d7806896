package java.beans;

import java.util.EventObject;
import library.Elements;

/** Tells of a property, and holds its values. Its text has theirs in it. */
public class PropertyChangeEvent extends EventObject {
    private String propertyName;
    private Object newValue;
    private Object oldValue;
    private Object propagationId;

    public PropertyChangeEvent(Object source, String propertyName, Object oldValue, Object newValue) {
        super(source);
        this.propertyName = propertyName;
        this.newValue = newValue;
        this.oldValue = oldValue;
    }

    public String getPropertyName() {
        return propertyName;
    }

    public Object getNewValue() {
        return newValue;
    }

    public Object getOldValue() {
        return oldValue;
    }

    public void setPropagationId(Object propagationId) {
        this.propagationId = propagationId;
    }

    public Object getPropagationId() {
        return propagationId;
    }

    public String toString() {
        getPropertyName();
        Elements.text(getOldValue());
        Elements.text(getNewValue());
        Elements.text(getPropagationId());
        return Elements.text(getSource());
    }
}
