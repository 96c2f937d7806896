/** Holds a lock from the start of the program to its end, and asks a second one only whether it is held. */
public final class Keeps {
    private Keeps() {
    }

    public static void main(String[] args) {
        Lock whole = new Lock();
        Lock other = new Lock();
        whole.lock();
        for (String text : args) {
            if (!other.isHeld()) {
                System.out.println(text);
            }
        }
    }
}
