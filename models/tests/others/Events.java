import java.beans.*;
import java.util.*;

/** Objects of a user around supports for listeners, their proxies and events, and what makes these. */
class Events {
    static class Listener implements PropertyChangeListener, VetoableChangeListener, Seen {
        public void propertyChange(PropertyChangeEvent event) {
            new Hit("Events$Listener propertyChange(Ljava/beans/PropertyChangeEvent;)V");
            Log.back(event.getOldValue());
            Log.back(event.getSource());
        }
        public void vetoableChange(PropertyChangeEvent event) throws PropertyVetoException {
            new Hit("Events$Listener vetoableChange(Ljava/beans/PropertyChangeEvent;)V");
            Log.back(event.getNewValue());
            throw new Veto(event);
        }
        public boolean equals(Object other) { new Hit("Events$Listener equals(Ljava/lang/Object;)Z"); return this == other; }
        public int hashCode() { new Hit("Events$Listener hashCode()I"); return 3; }
        public void back() { new Hit("Events$Listener back()V"); }
    }

    static class Veto extends PropertyVetoException implements Seen {
        Veto(PropertyChangeEvent event) { super("no", event); }
        public void back() { new Hit("Events$Veto back()V"); }
    }

    /** Is asked for another one when it is added to one with a name. */
    static class Proxy extends PropertyChangeListenerProxy implements Seen {
        Proxy(PropertyChangeListener inner) { super("a", inner); }
        public String getPropertyName() { new Hit("Events$Proxy getPropertyName()Ljava/lang/String;"); return super.getPropertyName(); }
        public PropertyChangeListener getListener() { new Hit("Events$Proxy getListener()Ljava/beans/PropertyChangeListener;"); return super.getListener(); }
        public void propertyChange(PropertyChangeEvent event) { new Hit("Events$Proxy propertyChange(Ljava/beans/PropertyChangeEvent;)V"); }
        public void back() { new Hit("Events$Proxy back()V"); }
    }

    static class Event extends PropertyChangeEvent implements Seen {
        Event(Object source) { super(source, "a", new Value(), new Value()); }
        public String getPropertyName() { new Hit("Events$Event getPropertyName()Ljava/lang/String;"); return super.getPropertyName(); }
        public Object getOldValue() { new Hit("Events$Event getOldValue()Ljava/lang/Object;"); return super.getOldValue(); }
        public Object getNewValue() { new Hit("Events$Event getNewValue()Ljava/lang/Object;"); return super.getNewValue(); }
        public Object getSource() { new Hit("Events$Event getSource()Ljava/lang/Object;"); return super.getSource(); }
        public void back() { new Hit("Events$Event back()V"); }
    }

    static class Value implements Seen {
        public boolean equals(Object other) { new Hit("Events$Value equals(Ljava/lang/Object;)Z"); return false; }
        public int hashCode() { new Hit("Events$Value hashCode()I"); return 3; }
        public String toString() { new Hit("Events$Value toString()Ljava/lang/String;"); return "value"; }
        public void back() { new Hit("Events$Value back()V"); }
    }

    static class Watched extends Observable implements Seen {
        public void notifyObservers(Object what) {
            new Hit("Events$Watched notifyObservers(Ljava/lang/Object;)V");
            setChanged();
            super.notifyObservers(what);
        }
        public synchronized boolean hasChanged() { new Hit("Events$Watched hasChanged()Z"); return super.hasChanged(); }
        protected synchronized void clearChanged() { new Hit("Events$Watched clearChanged()V"); super.clearChanged(); }
        public void back() { new Hit("Events$Watched back()V"); }
    }

    static class Observing implements Observer, Seen {
        public void update(Observable from, Object what) {
            new Hit("Events$Observing update(Ljava/util/Observable;Ljava/lang/Object;)V");
            Log.back(from);
            Log.back(what);
        }
        public boolean equals(Object other) { new Hit("Events$Observing equals(Ljava/lang/Object;)Z"); return this == other; }
        public void back() { new Hit("Events$Observing back()V"); }
    }

    static PropertyChangeSupport support() { PropertyChangeSupport all = new PropertyChangeSupport(new Value()); all.addPropertyChangeListener(new Listener()); return all; }
    static PropertyChangeSupport named() { PropertyChangeSupport all = new PropertyChangeSupport(new RecObj()); all.addPropertyChangeListener("a", new Listener()); return all; }
    static VetoableChangeSupport veto() { VetoableChangeSupport all = new VetoableChangeSupport(new Value()); all.addVetoableChangeListener(new Listener()); return all; }
    static VetoableChangeSupport vetoNamed() { VetoableChangeSupport all = new VetoableChangeSupport(new RecObj()); all.addVetoableChangeListener("a", new Listener()); return all; }
    static Listener listener() { return new Listener(); }
    static PropertyChangeListener proxy() { return new Proxy(new Listener()); }
    static PropertyChangeListenerProxy proxied() { return new PropertyChangeListenerProxy("b", new Listener()); }
    static VetoableChangeListenerProxy vetoProxied() { return new VetoableChangeListenerProxy("a", new Listener()); }
    static PropertyChangeEvent event() { return new Event(new RecObj()); }
    static EventObject object() { return new EventObject(new Value()); }
    static Object value() { return new Value(); }
    static Observable watched() { Watched all = new Watched(); all.addObserver(new Observing()); return all; }
    static Observer observing() { return new Observing(); }

    static void moreChanges() throws Exception {
        PropertyChangeSupport all = new PropertyChangeSupport(new Value());
        all.addPropertyChangeListener(new Proxy(new Proxy(new Listener())));
        all.addPropertyChangeListener("a", new PropertyChangeListenerProxy("b", new Listener()));
        all.firePropertyChange("a", new Value(), new Value());
        all.fireIndexedPropertyChange("a", 1, new Value(), new Value());
        all.firePropertyChange(new Event(new Value()));
        Log.backAll(all.getPropertyChangeListeners());
        Log.backAll(all.getPropertyChangeListeners("a"));
        all.removePropertyChangeListener(new Proxy(new Listener()));
    }

    static void moreVetoes() throws Exception {
        VetoableChangeSupport all = new VetoableChangeSupport(new Value());
        all.addVetoableChangeListener(new VetoableChangeListenerProxy("a", new Listener()));
        try {
            all.fireVetoableChange("a", new Value(), new Value());
        } catch (PropertyVetoException veto) {
            Log.back(veto);
            Log.back(veto.getPropertyChangeEvent());
            Log.back(veto.getPropertyChangeEvent().getOldValue());
        }
    }

    static void moreObservers() throws Exception {
        Watched all = new Watched();
        Observing one = new Observing();
        all.addObserver(one);
        all.addObserver(new Observing());
        all.notifyObservers(new Value());
        all.notifyObservers();
        all.deleteObserver(one);
        all.deleteObservers();
    }

    static void moreTexts() throws Exception {
        new EventObject(new Value()).toString();
        new Event(new Value()).toString();
        new PropertyChangeEvent(new Value(), "a", new Value(), new Value()).toString();
    }
}
