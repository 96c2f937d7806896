package java.beans;

import java.io.Serializable;
import library.Elements;
import library.Library;

/** Keeps listeners, and hands events to those that were kept, of whichever support and property. */
public class VetoableChangeSupport implements Serializable {
    private Object source;

    public VetoableChangeSupport(Object sourceBean) {
        if (sourceBean == null) {
            throw new NullPointerException();
        }
        source = sourceBean;
    }

    public void addVetoableChangeListener(VetoableChangeListener listener) {
        if (listener instanceof VetoableChangeListenerProxy && Library.any()) {
            VetoableChangeListenerProxy proxy = (VetoableChangeListenerProxy) listener;
            addVetoableChangeListener(proxy.getPropertyName(), proxy.getListener());
        } else {
            Library.keep(listener);
        }
    }

    public void removeVetoableChangeListener(VetoableChangeListener listener) {
        if (listener instanceof VetoableChangeListenerProxy && Library.any()) {
            VetoableChangeListenerProxy proxy = (VetoableChangeListenerProxy) listener;
            removeVetoableChangeListener(proxy.getPropertyName(), proxy.getListener());
        } else {
            find(listener);
        }
    }

    /** Looks for a listener by its equals. */
    private static void find(VetoableChangeListener listener) {
        while (listener != null && Library.any()) {
            Object kept = Library.kept();
            if (kept instanceof VetoableChangeListener) {
                listener.equals(kept);
            }
        }
    }

    public VetoableChangeListener[] getVetoableChangeListeners() {
        return listeners();
    }

    /** Listeners that were kept, as such or with the names of their properties. */
    private static VetoableChangeListener[] listeners() {
        VetoableChangeListener[] all = new VetoableChangeListener[Library.number()];
        while (Library.any()) {
            Object kept = Library.kept();
            if (kept instanceof VetoableChangeListener) {
                VetoableChangeListener listener = (VetoableChangeListener) kept;
                all[Library.number()] = Library.any() ? listener : new VetoableChangeListenerProxy(Library.text(), listener);
            }
        }
        return all;
    }

    public void addVetoableChangeListener(String propertyName, VetoableChangeListener listener) {
        VetoableChangeListener held = extract(listener);
        Library.keep(held);
    }

    private static VetoableChangeListener extract(VetoableChangeListener listener) {
        VetoableChangeListener held = listener;
        while (held instanceof VetoableChangeListenerProxy) {
            held = ((VetoableChangeListenerProxy) held).getListener();
        }
        return held;
    }

    public void removeVetoableChangeListener(String propertyName, VetoableChangeListener listener) {
        find(extract(listener));
    }

    public VetoableChangeListener[] getVetoableChangeListeners(String propertyName) {
        return listeners();
    }

    /** Whether two values may differ, by the equals of the first. */
    private static boolean differ(Object oldValue, Object newValue) {
        if (oldValue != null && Library.any()) {
            return !Elements.equal(oldValue, newValue) || Library.any();
        }
        return Library.any();
    }

    public void fireVetoableChange(String propertyName, Object oldValue, Object newValue) throws PropertyVetoException {
        if (differ(oldValue, newValue)) {
            fireVetoableChange(new PropertyChangeEvent(source, propertyName, oldValue, newValue));
        }
    }

    public void fireVetoableChange(String propertyName, int oldValue, int newValue) throws PropertyVetoException {
        if (Library.any()) {
            fireVetoableChange(propertyName, Integer.valueOf(oldValue), Integer.valueOf(newValue));
        }
    }

    public void fireVetoableChange(String propertyName, boolean oldValue, boolean newValue) throws PropertyVetoException {
        if (Library.any()) {
            fireVetoableChange(propertyName, Boolean.valueOf(oldValue), Boolean.valueOf(newValue));
        }
    }

    public void fireVetoableChange(PropertyChangeEvent event) throws PropertyVetoException {
        event.getPropertyName();
        differ(event.getOldValue(), event.getNewValue());
        try {
            tell(event);
        } catch (PropertyVetoException veto) {
            back(new PropertyChangeEvent(source, event.getPropertyName(), event.getNewValue(), event.getOldValue()));
            throw veto;
        }
    }

    private static void tell(PropertyChangeEvent event) throws PropertyVetoException {
        while (Library.any()) {
            Object kept = Library.kept();
            if (kept instanceof VetoableChangeListener) {
                ((VetoableChangeListener) kept).vetoableChange(event);
            }
        }
    }

    /** Tells the listeners that the old value is there again; what they say against it does not count. */
    private static void back(PropertyChangeEvent event) {
        while (Library.any()) {
            try {
                tell(event);
            } catch (PropertyVetoException veto) {
                Library.any();
            }
        }
    }

    public boolean hasListeners(String propertyName) {
        return Library.any();
    }
}
