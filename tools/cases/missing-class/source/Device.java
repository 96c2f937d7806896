/** Its methods are native. The jar has neither Thing nor Failure. */
final class Device {
    private Device() {
    }

    static native Thing thing();

    static native void fail() throws Failure;
}
