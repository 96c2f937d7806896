package java.beans;

import java.io.Serializable;
import library.Elements;
import library.Library;

/** Keeps listeners, and hands events to those that were kept, of whichever support and property. */
public class PropertyChangeSupport implements Serializable {
    private Object source;

    public PropertyChangeSupport(Object sourceBean) {
        if (sourceBean == null) {
            throw new NullPointerException();
        }
        source = sourceBean;
    }

    public void addPropertyChangeListener(PropertyChangeListener listener) {
        if (listener instanceof PropertyChangeListenerProxy && Library.any()) {
            PropertyChangeListenerProxy proxy = (PropertyChangeListenerProxy) listener;
            addPropertyChangeListener(proxy.getPropertyName(), proxy.getListener());
        } else {
            Library.keep(listener);
        }
    }

    public void removePropertyChangeListener(PropertyChangeListener listener) {
        if (listener instanceof PropertyChangeListenerProxy && Library.any()) {
            PropertyChangeListenerProxy proxy = (PropertyChangeListenerProxy) listener;
            removePropertyChangeListener(proxy.getPropertyName(), proxy.getListener());
        } else {
            find(listener);
        }
    }

    /** Looks for a listener by its equals. */
    private static void find(PropertyChangeListener listener) {
        while (listener != null && Library.any()) {
            Object kept = Library.kept();
            if (kept instanceof PropertyChangeListener) {
                listener.equals(kept);
            }
        }
    }

    public PropertyChangeListener[] getPropertyChangeListeners() {
        return listeners();
    }

    /** Listeners that were kept, as such or with the names of their properties. */
    private static PropertyChangeListener[] listeners() {
        PropertyChangeListener[] all = new PropertyChangeListener[Library.number()];
        while (Library.any()) {
            Object kept = Library.kept();
            if (kept instanceof PropertyChangeListener) {
                PropertyChangeListener listener = (PropertyChangeListener) kept;
                all[Library.number()] = Library.any() ? listener : new PropertyChangeListenerProxy(Library.text(), listener);
            }
        }
        return all;
    }

    public void addPropertyChangeListener(String propertyName, PropertyChangeListener listener) {
        PropertyChangeListener held = extract(listener);
        Library.keep(held);
    }

    private static PropertyChangeListener extract(PropertyChangeListener listener) {
        PropertyChangeListener held = listener;
        while (held instanceof PropertyChangeListenerProxy) {
            held = ((PropertyChangeListenerProxy) held).getListener();
        }
        return held;
    }

    public void removePropertyChangeListener(String propertyName, PropertyChangeListener listener) {
        find(extract(listener));
    }

    public PropertyChangeListener[] getPropertyChangeListeners(String propertyName) {
        return listeners();
    }

    /** Whether two values may differ, by the equals of the first. */
    private static boolean differ(Object oldValue, Object newValue) {
        if (oldValue != null && Library.any()) {
            return !Elements.equal(oldValue, newValue) || Library.any();
        }
        return Library.any();
    }

    public void firePropertyChange(String propertyName, Object oldValue, Object newValue) {
        if (differ(oldValue, newValue)) {
            firePropertyChange(new PropertyChangeEvent(source, propertyName, oldValue, newValue));
        }
    }

    public void firePropertyChange(String propertyName, int oldValue, int newValue) {
        if (Library.any()) {
            firePropertyChange(propertyName, Integer.valueOf(oldValue), Integer.valueOf(newValue));
        }
    }

    public void firePropertyChange(String propertyName, boolean oldValue, boolean newValue) {
        if (Library.any()) {
            firePropertyChange(propertyName, Boolean.valueOf(oldValue), Boolean.valueOf(newValue));
        }
    }

    public void firePropertyChange(PropertyChangeEvent event) {
        event.getPropertyName();
        differ(event.getOldValue(), event.getNewValue());
        while (Library.any()) {
            Object kept = Library.kept();
            if (kept instanceof PropertyChangeListener) {
                ((PropertyChangeListener) kept).propertyChange(event);
            }
        }
    }

    public void fireIndexedPropertyChange(String propertyName, int index, Object oldValue, Object newValue) {
        if (differ(oldValue, newValue)) {
            firePropertyChange(new IndexedPropertyChangeEvent(source, propertyName, oldValue, newValue, index));
        }
    }

    public void fireIndexedPropertyChange(String propertyName, int index, int oldValue, int newValue) {
        if (Library.any()) {
            fireIndexedPropertyChange(propertyName, index, Integer.valueOf(oldValue), Integer.valueOf(newValue));
        }
    }

    public void fireIndexedPropertyChange(String propertyName, int index, boolean oldValue, boolean newValue) {
        if (Library.any()) {
            fireIndexedPropertyChange(propertyName, index, Boolean.valueOf(oldValue), Boolean.valueOf(newValue));
        }
    }

    public boolean hasListeners(String propertyName) {
        return Library.any();
    }
}
